//! FIPS 197's key expansion for AES-256: a round key for the start and one for
//! each round, made of words of four bytes.

use super::block::{Block, ROUNDS};
use super::field::times_x;
use super::substitution::substitute;
use super::KEY;

/// In bytes, as is the key in words.
const WORD: usize = 4;
const KEY_WORDS: usize = KEY / WORD;

pub type Keys = [Block; ROUNDS + 1];

pub fn expand(key: &[u8; KEY]) -> Keys {
    let words = words(key);
    std::array::from_fn(|round| std::array::from_fn(|i| words[4 * round + i / WORD][i % WORD]))
}

/// Those of the key, then each the sum of the one before it, which is changed
/// at every fourth place, and of the one that lies a key's length back.
fn words(key: &[u8; KEY]) -> Vec<[u8; WORD]> {
    let chunks = key.chunks_exact(WORD);
    let mut words: Vec<[u8; WORD]> = chunks
        .map(|word| word.try_into().expect("four bytes"))
        .collect();
    let mut constant = 1;
    for i in KEY_WORDS..4 * (ROUNDS + 1) {
        let mut word = words[i - 1];
        match i % KEY_WORDS {
            0 => {
                word.rotate_left(1);
                word = word.map(substitute);
                word[0] ^= constant;
                constant = times_x(constant);
            }
            4 => word = word.map(substitute),
            _ => {}
        }
        let back = words[i - KEY_WORDS];
        words.push(std::array::from_fn(|place| word[place] ^ back[place]));
    }
    words
}

#[cfg(test)]
mod tests {
    use super::*;
    use crate::cipher::printed;

    /// Words of FIPS 197, appendix A.3, whose key SP 800-38A uses as well.
    #[test]
    fn printed_words() {
        let words = words(&printed::MODES_KEY);
        assert_eq!(words.len(), 60);
        for (i, word) in [
            (0, 0x603d_eb10_u32),
            (7, 0x0914_dff4),
            (8, 0x9ba3_5411),
            (12, 0xa8b0_9c1a),
            (59, 0x706c_631e),
        ] {
            assert_eq!(words[i], word.to_be_bytes(), "w{i}");
        }
    }
}
