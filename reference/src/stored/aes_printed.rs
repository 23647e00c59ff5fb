//! What the standards print, whole and cut in two at every place.

use super::aes_cases::{push_one, Start, DECIPHER, ENCIPHER};
use crate::cipher::{printed, BLOCK};

pub fn push(records: &mut Vec<u8>) {
    let start = Start {
        key: printed::EXAMPLE_KEY,
        vector: [0; BLOCK],
    };
    let (plain, ciphered) = (&printed::EXAMPLE_PLAIN, &printed::EXAMPLE_CIPHERED);
    every_cut(records, ENCIPHER, start, plain);
    every_cut(records, DECIPHER, start, ciphered);

    let start = Start {
        key: printed::MODES_KEY,
        vector: printed::MODES_VECTOR,
    };
    let (plain, ciphered) = (printed::modes_plain(), printed::modes_ciphered());
    every_cut(records, ENCIPHER, start, &plain);
    every_cut(records, DECIPHER, start, &ciphered);
    for length in 0..plain.len() {
        let first = (length / 2) as u32;
        push_one(records, ENCIPHER, start, first, &plain[..length]);
        push_one(records, DECIPHER, start, first, &ciphered[..length]);
    }
}

/// And behind the end, where all goes to the first call.
fn every_cut(records: &mut Vec<u8>, op: u8, start: Start, bytes: &[u8]) {
    let end = bytes.len() as u32;
    for first in (0..=end + 1).chain([1 << 31, u32::MAX - 15, u32::MAX]) {
        push_one(records, op, start, first, bytes);
    }
}
