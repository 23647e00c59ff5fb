//! The wire check's input and output: numbers read and stored at any offset.
//!
//! A record is n (1 byte, at most 32), an offset and a value (8 bytes each),
//! then n bytes. Its line has the five numbers read at the offset, then the n
//! bytes in hexadecimal after each of six stores into the original bytes.

use crate::generator::Generator;
use crate::numbers as at_offset;
use crate::numbers::read_u64;

/// Signs at both widths, all bits, none, and every value modulo 9 nearby.
const VALUES: [u64; 16] = [
    0,
    1,
    8,
    0x7fff,
    0x8000,
    0x7fff_ffff,
    0x8000_0000,
    0xffff_ffff,
    0x1_0000_0000,
    0x7fff_ffff_ffff_ffff,
    0x8000_0000_0000_0000,
    0x8000_0000_8000_8000,
    0xffff_ffff_0000_0000,
    0xffff_ffff_ffff_fff6,
    0xffff_ffff_ffff_ffff,
    0x0807_0605_0403_0201,
];

pub fn input() -> Vec<u8> {
    let mut generator = Generator::new(0x317E);
    let mut records = Vec::new();
    every_offset(&mut generator, &mut records);
    for turn in 0..250 {
        let n = generator.below(33);
        let at = offset(&mut generator, turn, n);
        let value = value(&mut generator, turn);
        let bytes = bytes(&mut generator, n as usize);
        push(&mut records, at, value, &bytes);
    }
    records
}

/// Each offset from the front to past the end, at a few lengths.
fn every_offset(generator: &mut Generator, records: &mut Vec<u8>) {
    for n in [0, 1, 2, 7, 8, 9, 16] {
        for at in 0..=n + 1 {
            let value = generator.draw();
            let bytes = generator.bytes(n as usize);
            push(records, at, value, &bytes);
        }
    }
}

fn offset(generator: &mut Generator, turn: u64, n: u64) -> u64 {
    let small = generator.below(9);
    match turn % 10 {
        0..=3 => generator.below(n + 1),
        4..=5 => n.saturating_sub(small),
        6 => n + small,
        7 => u64::MAX - small,
        8 => u64::MAX - generator.below(40),
        _ => far(generator, n),
    }
}

/// Far past the end, with the lowest bits inside: an offset cut to fewer bits
/// would hit the bytes.
fn far(generator: &mut Generator, n: u64) -> u64 {
    let inside = generator.below(n + 1);
    inside + generator.pick(&[1 << 8, 1 << 16, 1 << 31, 1 << 32, 1 << 33, 1 << 62, 1 << 63])
}

fn value(generator: &mut Generator, turn: u64) -> u64 {
    if turn.is_multiple_of(3) {
        generator.pick(&VALUES)
    } else {
        generator.draw()
    }
}

/// Bytes at random, or such that the numbers read are the extreme ones.
fn bytes(generator: &mut Generator, n: usize) -> Vec<u8> {
    match generator.below(6) {
        0 => vec![0xff; n],
        1 => vec![0x80; n],
        2 => vec![0x00; n],
        _ => generator.bytes(n),
    }
}

fn push(records: &mut Vec<u8>, at: u64, value: u64, bytes: &[u8]) {
    records.push(bytes.len() as u8);
    records.extend(at.to_le_bytes());
    records.extend(value.to_le_bytes());
    records.extend(bytes);
}

pub fn output(mut records: &[u8]) -> Vec<u8> {
    let mut lines = String::new();
    while !records.is_empty() {
        let n = usize::from(records[0]);
        let at = read_u64(records, 1);
        let value = read_u64(records, 9);
        let (bytes, others) = records[17..].split_at(n);
        lines += &line(bytes, at, value);
        records = others;
    }
    lines.into_bytes()
}

fn line(bytes: &[u8], at: u64, value: u64) -> String {
    let run = &value.to_le_bytes()[..(value % 9) as usize];
    let stored = |store: &dyn Fn(&mut [u8])| {
        let mut copy = bytes.to_vec();
        store(&mut copy);
        hex(&copy)
    };
    let fields = [
        at_offset::read_u16(bytes, at).to_string(),
        at_offset::read_u32(bytes, at).to_string(),
        at_offset::read_u64(bytes, at).to_string(),
        at_offset::read_i32(bytes, at).to_string(),
        at_offset::read_i64(bytes, at).to_string(),
        stored(&|b| at_offset::store_u16(b, at, value as u16)),
        stored(&|b| at_offset::store_u32(b, at, value as u32)),
        stored(&|b| at_offset::store_u64(b, at, value)),
        stored(&|b| at_offset::store_i32(b, at, value as i32)),
        stored(&|b| at_offset::store_i64(b, at, value as i64)),
        stored(&|b| at_offset::copy(b, at, run)),
    ];
    fields.join(" ") + "\n"
}

/// Lower-case hexadecimal; an empty string is a dash, so that it is a field.
fn hex(bytes: &[u8]) -> String {
    if bytes.is_empty() {
        return "-".to_string();
    }
    bytes.iter().map(|byte| format!("{byte:02x}")).collect()
}

#[cfg(test)]
mod tests {
    use super::*;

    #[test]
    fn one_line_by_hand() {
        let expected = "65283 65283 65283 65283 65283 \
                        0102fdff 0102fdff 0102fdff 0102fdff 0102fdff 0102fdff\n";
        assert_eq!(line(&[1, 2, 3, 0xff], 2, u64::MAX - 2), expected);
        assert_eq!(line(&[], 0, 7), "0 0 0 0 0 - - - - - -\n");
    }

    #[test]
    fn every_run_length_occurs() {
        let input = input();
        let mut seen = [false; 9];
        let mut rest = &input[..];
        while !rest.is_empty() {
            seen[(read_u64(rest, 9) % 9) as usize] = true;
            rest = &rest[17 + usize::from(rest[0])..];
        }
        assert_eq!(seen, [true; 9]);
    }

    #[test]
    fn lines_have_eleven_fields() {
        let text = String::from_utf8(output(&input())).unwrap();
        assert!(text.lines().all(|line| line.split(' ').count() == 11));
        assert!(text.lines().count() >= 300);
    }
}
