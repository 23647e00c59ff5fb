//! Two calls in a row, cut where blocks end and elsewhere: both are done, both
//! are refused, or either alone.

use super::aes_cases::{push_one, Start, OPS};
use crate::cipher::BLOCK;
use crate::generator::Generator;

/// In blocks.
const LENGTH: usize = 9;

pub fn push(records: &mut Vec<u8>) {
    let mut generator = Generator::new(0xA9_01);
    for op in OPS {
        let start = Start::draw(&mut generator);
        let bytes = generator.bytes(LENGTH * BLOCK);
        for blocks in 0..=LENGTH + 1 {
            let cut = (blocks * BLOCK) as u32;
            for first in [cut, cut + 1, cut + 7, cut + 15] {
                push_one(records, op, start, first, &bytes);
            }
            for more in [1, 8, 15] {
                let bytes = [&bytes[..], &generator.bytes(more)].concat();
                push_one(records, op, start, cut, &bytes);
                push_one(records, op, start, more as u32, &bytes);
            }
        }
    }
}
