//! SHA-1, as FIPS 180-4 describes it.

use super::{bits, padded, BLOCK};

/// The hash value before the first block.
const START: [u32; 5] = [
    0x6745_2301,
    0xefcd_ab89,
    0x98ba_dcfe,
    0x1032_5476,
    0xc3d2_e1f0,
];

pub fn sha1(message: &[u8]) -> [u8; 20] {
    let mut hash = START;
    for block in padded(message, bits(message).to_be_bytes()).chunks_exact(BLOCK) {
        let mixed = steps(hash, &schedule(block));
        hash = std::array::from_fn(|i| hash[i].wrapping_add(mixed[i]));
    }
    let bytes: Vec<u8> = hash.iter().flat_map(|h| h.to_be_bytes()).collect();
    bytes.try_into().expect("five words")
}

/// The block's 16 words, big-endian, and 64 made of those before them.
fn schedule(block: &[u8]) -> Vec<u32> {
    let mut words: Vec<u32> = block
        .chunks_exact(4)
        .map(|four| u32::from_be_bytes(four.try_into().expect("four bytes")))
        .collect();
    for t in 16..80 {
        let word = words[t - 3] ^ words[t - 8] ^ words[t - 14] ^ words[t - 16];
        words.push(word.rotate_left(1));
    }
    words
}

fn steps(start: [u32; 5], words: &[u32]) -> [u32; 5] {
    let [mut a, mut b, mut c, mut d, mut e] = start;
    for (t, word) in words.iter().enumerate() {
        let (function, constant) = match t / 20 {
            0 => ((b & c) ^ (!b & d), 0x5a82_7999),
            1 => (b ^ c ^ d, 0x6ed9_eba1),
            2 => ((b & c) ^ (b & d) ^ (c & d), 0x8f1b_bcdc_u32),
            _ => (b ^ c ^ d, 0xca62_c1d6),
        };
        let sum = a
            .rotate_left(5)
            .wrapping_add(function)
            .wrapping_add(e)
            .wrapping_add(constant)
            .wrapping_add(*word);
        (a, b, c, d, e) = (sum, a, b.rotate_left(30), c, d);
    }
    [a, b, c, d, e]
}

#[cfg(test)]
mod tests {
    use super::*;
    use crate::hexadecimal::hexadecimal;

    #[test]
    fn the_published_examples() {
        let million = "a".repeat(1_000_000);
        let examples = [
            ("", "da39a3ee5e6b4b0d3255bfef95601890afd80709"),
            ("abc", "a9993e364706816aba3e25717850c26c9cd0d89d"),
            (
                "abcdbcdecdefdefgefghfghighijhijkijkljklmklmnlmnomnopnopq",
                "84983e441c3bd26ebaae4aa1f95129e5e54670f1",
            ),
            (
                "abcdefghbcdefghicdefghijdefghijkefghijklfghijklmghijklmn\
                 hijklmnoijklmnopjklmnopqklmnopqrlmnopqrsmnopqrstnopqrstu",
                "a49b2446a02c645bf419f995b67091253a04a259",
            ),
            (&million, "34aa973cd4c4daa4f61eeb2bdbad27316534016f"),
        ];
        for (message, digest) in examples {
            assert_eq!(hexadecimal(&sha1(message.as_bytes())), digest);
        }
    }
}
