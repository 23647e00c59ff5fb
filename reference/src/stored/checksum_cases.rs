//! The checksum check's input and output.
//!
//! A record is a length n and a place k of 4 bytes each, k at most n, then n
//! bytes. Its line is n, then CRC-32 of the whole, CRC-32 of the first k bytes
//! continued over the rest, and the same two for CRC-32C.

use crate::checksum::{CRC32, CRC32C};
use crate::generator::Generator;
use crate::numbers::read_u32;

pub fn input() -> Vec<u8> {
    let mut generator = Generator::new(0xC5C);
    let mut records = Vec::new();
    push(&mut records, 4, b"123456789");
    push(&mut records, 0, b"");
    for (turn, n) in lengths(&mut generator).into_iter().enumerate() {
        let k = place(&mut generator, turn, n);
        push(&mut records, k, &generator.bytes(n));
    }
    for (turn, n) in FLAT_LENGTHS.into_iter().enumerate() {
        for byte in [0x00, 0xff] {
            let k = place(&mut generator, turn, n);
            push(&mut records, k, &vec![byte; n]);
        }
    }
    records
}

const FLAT_LENGTHS: [usize; 22] = [
    1, 2, 3, 4, 5, 7, 8, 9, 15, 16, 17, 31, 32, 33, 63, 64, 65, 255, 256, 1000, 4096, 5001,
];

/// Every short length, those around the powers of two (where a form that works
/// in blocks changes its path), some at random, and the longest allowed.
fn lengths(generator: &mut Generator) -> Vec<usize> {
    let mut lengths: Vec<usize> = (1..=130).collect();
    for power in 8..=14 {
        let middle = 1 << power;
        lengths.extend([middle - 1, middle, middle + 1]);
    }
    lengths.extend((0..40).map(|_| generator.below(6001) as usize));
    lengths.extend([31_999, 32_000]);
    lengths
}

/// The place where the checksum is continued: both ends, odd places and any.
fn place(generator: &mut Generator, turn: usize, n: usize) -> usize {
    let any = generator.below(n as u64 + 1) as usize;
    match turn % 5 {
        0 => 0,
        1 => n,
        2 => (any | 1).min(n),
        3 => n - n.min(1 + any % 9),
        _ => any,
    }
}

fn push(records: &mut Vec<u8>, k: usize, bytes: &[u8]) {
    records.extend((bytes.len() as u32).to_le_bytes());
    records.extend((k as u32).to_le_bytes());
    records.extend(bytes);
}

pub fn output(mut records: &[u8]) -> Vec<u8> {
    let mut lines = String::new();
    while !records.is_empty() {
        let n = read_u32(records, 0) as usize;
        let k = read_u32(records, 4) as usize;
        let (bytes, others) = records[8..].split_at(n);
        lines += &line(bytes, k);
        records = others;
    }
    lines.into_bytes()
}

fn line(bytes: &[u8], k: usize) -> String {
    let mut line = bytes.len().to_string();
    for polynomial in [CRC32, CRC32C] {
        let whole = polynomial.of(bytes);
        let continued = polynomial.update(polynomial.of(&bytes[..k]), &bytes[k..]);
        line += &format!(" {whole:08x} {continued:08x}");
    }
    line + "\n"
}

#[cfg(test)]
mod tests {
    use super::*;

    #[test]
    fn the_first_two_lines() {
        let text = String::from_utf8(output(&input())).unwrap();
        let mut lines = text.lines();
        assert_eq!(lines.next(), Some("9 cbf43926 cbf43926 e3069283 e3069283"));
        assert_eq!(lines.next(), Some("0 00000000 00000000 00000000 00000000"));
    }

    #[test]
    fn within_the_agreed_size() {
        let input = input();
        assert!(input.len() <= 400_000, "{}", input.len());
        let mut rest = &input[..];
        while !rest.is_empty() {
            let (n, k) = (read_u32(rest, 0), read_u32(rest, 4));
            assert!(k <= n && n <= 32_000);
            rest = &rest[8 + n as usize..];
        }
    }
}
