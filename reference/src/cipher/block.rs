//! FIPS 197's cipher and inverse cipher on one block. Byte i of it stands in
//! row i%4 and column i/4 of the state.

use super::field::product;
use super::schedule::Keys;
use super::substitution::{substitute, substitute_back};
use super::{sum, BLOCK};

pub const ROUNDS: usize = 14;

pub type Block = [u8; BLOCK];

/// The first row of the matrix that a column is multiplied by; each further
/// row is the one above it, turned right by one.
const FACTORS: [u8; 4] = [2, 3, 1, 1];
const FACTORS_BACK: [u8; 4] = [0x0e, 0x0b, 0x0d, 0x09];

pub fn cipher(keys: &Keys, block: Block) -> Block {
    let mut state = sum(&block, &keys[0]);
    for key in &keys[1..ROUNDS] {
        state = shift_rows(state.map(substitute));
        state = sum(&mix_columns(state, FACTORS), key);
    }
    sum(&shift_rows(state.map(substitute)), &keys[ROUNDS])
}

pub fn inverse_cipher(keys: &Keys, block: Block) -> Block {
    let mut state = sum(&block, &keys[ROUNDS]);
    for key in keys[1..ROUNDS].iter().rev() {
        state = shift_rows_back(state).map(substitute_back);
        state = mix_columns(sum(&state, key), FACTORS_BACK);
    }
    sum(&shift_rows_back(state).map(substitute_back), &keys[0])
}

/// Each row by its number to the left.
fn shift_rows(state: Block) -> Block {
    std::array::from_fn(|i| {
        let (row, column) = (i % 4, i / 4);
        state[row + 4 * ((column + row) % 4)]
    })
}

fn shift_rows_back(state: Block) -> Block {
    std::array::from_fn(|i| {
        let (row, column) = (i % 4, i / 4);
        state[row + 4 * ((column + 4 - row) % 4)]
    })
}

fn mix_columns(state: Block, factors: [u8; 4]) -> Block {
    std::array::from_fn(|i| {
        let (row, column) = (i % 4, i / 4);
        let term = |k: usize| product(state[4 * column + k], factors[(k + 4 - row) % 4]);
        (0..4).fold(0, |sum, k| sum ^ term(k))
    })
}

#[cfg(test)]
mod tests {
    use super::*;

    fn numbered() -> Block {
        std::array::from_fn(|i| i as u8)
    }

    #[test]
    fn rows_go_left_by_their_number() {
        let shifted = shift_rows(numbered());
        assert_eq!(
            shifted,
            [0, 5, 10, 15, 4, 9, 14, 3, 8, 13, 2, 7, 12, 1, 6, 11]
        );
        assert_eq!(shift_rows_back(shifted), numbered());
    }

    /// The first column of FIPS 197, appendix B, round 1.
    #[test]
    fn a_printed_column() {
        let mut state = numbered();
        state[..4].copy_from_slice(&[0xd4, 0xbf, 0x5d, 0x30]);
        let mixed = mix_columns(state, FACTORS);
        assert_eq!(mixed[..4], [0x04, 0x66, 0x81, 0xe5]);
        assert_eq!(mix_columns(mixed, FACTORS_BACK), state);
    }
}
