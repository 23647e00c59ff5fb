//! Keys, vectors and blocks of one value, and of one bit.

use super::aes_cases::{push_one, Start, OPS};
use crate::cipher::{BLOCK, KEY};

const VALUES: [u8; 4] = [0, 255, 0x01, 0x80];

pub fn push(records: &mut Vec<u8>) {
    for op in OPS {
        for key in VALUES {
            for vector in VALUES {
                for block in VALUES {
                    let start = start(key, vector);
                    push_one(records, op, start, BLOCK as u32, &[block; 2 * BLOCK]);
                }
            }
        }
        key_bits(records, op);
        block_bits(records, op);
    }
}

fn start(key: u8, vector: u8) -> Start {
    Start {
        key: [key; KEY],
        vector: [vector; BLOCK],
    }
}

/// Each bit of a key alone, and a block of zeros for each call.
fn key_bits(records: &mut Vec<u8>, op: u8) {
    for bit in 0..8 * KEY {
        let mut start = start(0, 0);
        start.key[bit / 8] = 1 << (bit % 8);
        push_one(records, op, start, BLOCK as u32, &[0; 2 * BLOCK]);
    }
}

/// Each bit of a block alone, twice in a row; then the same bit of the vector
/// with blocks of zeros.
fn block_bits(records: &mut Vec<u8>, op: u8) {
    for bit in 0..8 * BLOCK {
        let mut start = start(0, 0);
        let mut block = [0; BLOCK];
        block[bit / 8] = 1 << (bit % 8);
        push_one(records, op, start, BLOCK as u32, &block.repeat(2));
        if bit % 5 == 0 {
            start.vector = block;
            push_one(records, op, start, BLOCK as u32, &[0; 2 * BLOCK]);
        }
    }
}
