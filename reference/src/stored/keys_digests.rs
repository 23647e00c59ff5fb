//! Digests: the published ones, every short length, all around the ends of
//! blocks, and long ones.

use super::keys_cases::{DIGEST, LONGEST};
use super::records::push_run;
use crate::generator::Generator;

/// Of RFC 1321 and of NIST; the million letters are too long to be stored.
const PUBLISHED: [&str; 9] = [
    "",
    "a",
    "abc",
    "message digest",
    "abcdefghijklmnopqrstuvwxyz",
    "ABCDEFGHIJKLMNOPQRSTUVWXYZabcdefghijklmnopqrstuvwxyz0123456789",
    "12345678901234567890123456789012345678901234567890123456789012345678901234567890",
    "abcdbcdecdefdefgefghfghighijhijkijkljklmklmnlmnomnopnopq",
    "abcdefghbcdefghicdefghijdefghijkefghijklfghijklmghijklmn\
     hijklmnoijklmnopjklmnopqklmnopqrlmnopqrsmnopqrstnopqrstu",
];

pub fn push(records: &mut Vec<u8>) {
    let mut generator = Generator::new(0xA8_01);
    for message in PUBLISHED {
        push_one(records, message.as_bytes());
    }
    for n in lengths(&mut generator) {
        push_one(records, &generator.bytes(n));
    }
    for byte in [0x00, 0x80, 0xff] {
        for n in [1, 8, 55, 56, 57, 63, 64, 65, 119, 120, 128] {
            push_one(records, &vec![byte; n]);
        }
    }
}

fn push_one(records: &mut Vec<u8>, message: &[u8]) {
    assert!(message.len() <= LONGEST);
    records.push(DIGEST);
    push_run(records, message);
}

const EVERY_LENGTH: usize = 300;
const LAST_BLOCK: usize = 1088;

/// From 8 bytes before the end of a block on, the length has no room in it.
fn lengths(generator: &mut Generator) -> Vec<usize> {
    let mut lengths: Vec<usize> = (0..=EVERY_LENGTH).collect();
    for end in (320..=LAST_BLOCK).step_by(64) {
        lengths.extend(end - 11..=end + 3);
    }
    lengths.extend((0..40).map(|_| generator.below(LONGEST as u64 + 1) as usize));
    // Most are shorter, so that the file stays small.
    lengths.extend((0..160).map(|_| generator.below(2048) as usize));
    lengths.extend([LONGEST - 1, LONGEST]);
    lengths
}
