//! Random keys, vectors and bytes of every length that is short, and of some
//! that are long.

use super::aes_cases::{push_one, Start, DECIPHER, ENCIPHER, LONGEST, OPS};
use crate::cipher::{encipher, BLOCK};
use crate::generator::Generator;

const SHORT: usize = 70;
const LONG: [usize; 13] = [
    127, 128, 255, 256, 1000, 1008, 1024, 4095, 4096, 4112, 16_384, 65_520, LONGEST,
];

pub fn push(records: &mut Vec<u8>) {
    let mut generator = Generator::new(0xA9_02);
    for op in OPS {
        for length in 0..=SHORT {
            short(records, &mut generator, op, length);
        }
        for length in LONG {
            let first = cut(&mut generator, length);
            one(records, &mut generator, op, first, length);
        }
        // No whole blocks, whatever the cut.
        one(records, &mut generator, op, 16, LONGEST - 1);
        for length in [1008, 4112] {
            one(records, &mut generator, op, u32::MAX, length);
            one(records, &mut generator, op, 0, length);
            one(records, &mut generator, op, 15, length);
        }
    }
    for blocks in 0..=16 {
        there_and_back(records, &mut generator, blocks);
    }
}

fn one(records: &mut Vec<u8>, generator: &mut Generator, op: u8, first: u32, length: usize) {
    let start = Start::draw(generator);
    push_one(records, op, start, first, &generator.bytes(length));
}

fn short(records: &mut Vec<u8>, generator: &mut Generator, op: u8, length: usize) {
    let anywhere = generator.below(length as u64 + 2) as u32;
    let at_block = cut(generator, length);
    for first in [length as u32, anywhere, at_block] {
        one(records, generator, op, first, length);
    }
}

/// Where a block ends.
fn cut(generator: &mut Generator, length: usize) -> u32 {
    let blocks = (length / BLOCK) as u64;
    generator.below(blocks + 1) as u32 * BLOCK as u32
}

/// What was enciphered comes back, each with a cut of its own.
fn there_and_back(records: &mut Vec<u8>, generator: &mut Generator, blocks: usize) {
    let start = Start::draw(generator);
    let mut bytes = generator.bytes(blocks * BLOCK);
    let first = cut(generator, bytes.len());
    push_one(records, ENCIPHER, start, first, &bytes);
    let mut vector = start.vector;
    encipher(&start.key, &mut vector, &mut bytes).expect("whole blocks");
    let first = cut(generator, bytes.len());
    push_one(records, DECIPHER, start, first, &bytes);
}
