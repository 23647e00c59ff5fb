//! The AES check's input and output (document 02, A9). A record is two calls
//! in a row under one key: op (1 enciphers, 2 deciphers), key (32 bytes),
//! vector (16), first (4), n (4) and n bytes. The first call gets the first
//! `first` bytes, all of them if there are fewer, and the second the rest with
//! the vector that the first left.
//!
//! A call's line is `done` or `no` and the number, the vector after it, and the
//! bytes after it: up to 64 of them as they are, more as CRC-32 and CRC-32C.

use super::aes_bits;
use super::aes_cuts;
use super::aes_printed;
use super::aes_random;
use super::records::{push_run, Records};
use crate::checksum::{CRC32, CRC32C};
use crate::cipher::{decipher, encipher, BLOCK, KEY};
use crate::generator::Generator;
use crate::hexadecimal::hexadecimal;

pub const ENCIPHER: u8 = 1;
pub const DECIPHER: u8 = 2;
pub const OPS: [u8; 2] = [ENCIPHER, DECIPHER];

/// The most that a record may have.
pub const LONGEST: usize = 65_536;

/// The most that a line shows as they are.
const SHOWN: usize = 64;

pub fn input() -> Vec<u8> {
    let mut records = Vec::new();
    aes_printed::push(&mut records);
    aes_bits::push(&mut records);
    aes_cuts::push(&mut records);
    aes_random::push(&mut records);
    records
}

/// Key and vector of a record.
#[derive(Clone, Copy)]
pub struct Start {
    pub key: [u8; KEY],
    pub vector: [u8; BLOCK],
}

impl Start {
    pub fn draw(generator: &mut Generator) -> Start {
        Start {
            key: std::array::from_fn(|_| generator.byte()),
            vector: std::array::from_fn(|_| generator.byte()),
        }
    }
}

pub fn push_one(records: &mut Vec<u8>, op: u8, start: Start, first: u32, bytes: &[u8]) {
    assert!(bytes.len() <= LONGEST);
    records.push(op);
    records.extend(start.key);
    records.extend(start.vector);
    records.extend(first.to_le_bytes());
    push_run(records, bytes);
}

pub fn output(records: &[u8]) -> Vec<u8> {
    let mut records = Records(records);
    let mut lines = String::new();
    while let Some(op) = records.op() {
        let (key, mut vector) = (records.array(), records.array());
        let first = records.u32() as usize;
        let mut bytes = records.run().to_vec();
        let cut = first.min(bytes.len());
        let (front, rest) = bytes.split_at_mut(cut);
        for part in [front, rest] {
            lines += &line(op, &key, &mut vector, part);
            lines.push('\n');
        }
    }
    lines.into_bytes()
}

fn line(op: u8, key: &[u8; KEY], vector: &mut [u8; BLOCK], buffer: &mut [u8]) -> String {
    let answer = match op {
        ENCIPHER => encipher(key, vector, buffer),
        DECIPHER => decipher(key, vector, buffer),
        _ => unreachable!("op {op}"),
    };
    let answer = match answer {
        Ok(()) => "done".to_string(),
        Err(refusal) => format!("no {}", refusal.number()),
    };
    format!("{answer} {} {}", hexadecimal(vector), shown(buffer))
}

fn shown(bytes: &[u8]) -> String {
    if bytes.len() <= SHOWN {
        return hexadecimal(bytes);
    }
    format!("{:08x} {:08x}", CRC32.of(bytes), CRC32C.of(bytes))
}

#[cfg(test)]
mod tests {
    use super::*;
    use crate::cipher::printed;

    fn lines(records: &[u8]) -> String {
        String::from_utf8(output(records)).unwrap()
    }

    /// One record, byte by byte, and the lines of its two calls.
    #[test]
    fn a_record_by_hand() {
        let (plain, ciphered) = (printed::EXAMPLE_PLAIN, printed::EXAMPLE_CIPHERED);
        let fields = [&[16, 0, 0, 0, 18, 0, 0, 0][..], &plain, &[7, 8]].concat();
        let record = [&[1][..], &printed::EXAMPLE_KEY, &[0; 16], &fields].concat();
        let vector = hexadecimal(&ciphered);
        let expected = format!("done {vector} {vector}\nno 37 {vector} 0708\n");
        assert_eq!(lines(&record), expected);

        let start = Start {
            key: printed::EXAMPLE_KEY,
            vector: [0; 16],
        };
        let mut records = Vec::new();
        push_one(&mut records, DECIPHER, start, u32::MAX, &ciphered);
        let expected = format!("done {vector} {}\ndone {vector} \n", hexadecimal(&plain));
        assert_eq!(lines(&records), expected);
    }

    #[test]
    fn more_than_64_bytes_are_checksums() {
        let start = Start {
            key: [1; 32],
            vector: [2; 16],
        };
        let mut records = Vec::new();
        push_one(
            &mut records,
            ENCIPHER,
            start,
            65,
            b"123456789".repeat(8).as_slice(),
        );
        let vector = "02".repeat(16);
        let shown = hexadecimal(b"3456789");
        let front = &b"123456789".repeat(8)[..65];
        let sums = format!("{:08x} {:08x}", CRC32.of(front), CRC32C.of(front));
        let expected = format!("no 37 {vector} {sums}\nno 37 {vector} {shown}\n");
        assert_eq!(lines(&records), expected);
    }

    #[test]
    fn every_answer_occurs_within_the_agreed_size() {
        let input = input();
        assert!(input.len() < 1_000_000, "{}", input.len());
        let text = lines(&input);
        let count = |word: &str| text.lines().filter(|line| line.starts_with(word)).count();
        let (done, refused) = (count("done "), count("no 37 "));
        assert_eq!(done + refused, text.lines().count());
        assert!((2_000..=4_000).contains(&(done + refused)));
        assert!(done >= 1_500 && refused >= 300, "{done} {refused}");
    }
}
