//! MD5, as RFC 1321 describes it.

use super::{bits, padded, BLOCK};
use crate::numbers::read_u32;

/// The registers A, B, C and D before the first block.
const START: [u32; 4] = [0x6745_2301, 0xefcd_ab89, 0x98ba_dcfe, 0x1032_5476];

/// How far the operations of each of the four rounds turn, over and over.
const TURNS: [[u32; 4]; 4] = [
    [7, 12, 17, 22],
    [5, 9, 14, 20],
    [4, 11, 16, 23],
    [6, 10, 15, 21],
];

pub fn md5(message: &[u8]) -> [u8; 16] {
    let sines = sines();
    let mut registers = START;
    for block in padded(message, bits(message).to_le_bytes()).chunks_exact(BLOCK) {
        let words = std::array::from_fn(|k| read_u32(block, 4 * k as u64));
        let mixed = rounds(registers, words, &sines);
        registers = std::array::from_fn(|i| registers[i].wrapping_add(mixed[i]));
    }
    let bytes: Vec<u8> = registers.iter().flat_map(|r| r.to_le_bytes()).collect();
    bytes.try_into().expect("four registers")
}

/// The whole part of 2^32 times abs(sin(i)), i in radians from 1 to 64. The
/// first of the RFC's table stands at 0 here.
fn sines() -> [u32; 64] {
    std::array::from_fn(|before| {
        let i = (before + 1) as f64;
        (i.sin().abs() * 4_294_967_296.0) as u32
    })
}

/// The RFC turns the registers' names from one operation to the next; here
/// their values move on by one name.
fn rounds(start: [u32; 4], words: [u32; 16], sines: &[u32; 64]) -> [u32; 4] {
    let [mut a, mut b, mut c, mut d] = start;
    for i in 0..64 {
        let (function, k) = match i / 16 {
            0 => ((b & c) | (!b & d), i),
            1 => ((b & d) | (c & !d), 5 * i + 1),
            2 => (b ^ c ^ d, 3 * i + 5),
            _ => (c ^ (b | !d), 7 * i),
        };
        let sum = a
            .wrapping_add(function)
            .wrapping_add(words[k % 16])
            .wrapping_add(sines[i]);
        let turned = sum.rotate_left(TURNS[i / 16][i % 4]);
        (a, b, c, d) = (d, b.wrapping_add(turned), b, c);
    }
    [a, b, c, d]
}

#[cfg(test)]
mod tests {
    use super::*;
    use crate::hexadecimal::hexadecimal;

    /// Both ends of each round, as the RFC's program prints them.
    #[test]
    fn printed_sines() {
        let printed = [
            (1, 0xd76a_a478),
            (2, 0xe8c7_b756),
            (16, 0x49b4_0821),
            (17, 0xf61e_2562),
            (32, 0x8d2a_4c8a),
            (33, 0xfffa_3942),
            (48, 0xc4ac_5665),
            (49, 0xf429_2244),
            (64, 0xeb86_d391),
        ];
        for (i, sine) in printed {
            assert_eq!(sines()[i - 1], sine, "{i}");
        }
    }

    #[test]
    fn the_test_suite_of_the_rfc() {
        let eighty = "1234567890".repeat(8);
        let suite = [
            ("", "d41d8cd98f00b204e9800998ecf8427e"),
            ("a", "0cc175b9c0f1b6a831c399e269772661"),
            ("abc", "900150983cd24fb0d6963f7d28e17f72"),
            ("message digest", "f96b697d7cb7938d525a2f31aaf161d0"),
            (
                "abcdefghijklmnopqrstuvwxyz",
                "c3fcd3d76192e4007dfb496cca67e13b",
            ),
            (
                "ABCDEFGHIJKLMNOPQRSTUVWXYZabcdefghijklmnopqrstuvwxyz0123456789",
                "d174ab98d277d9f5a5611c2c9f419d9f",
            ),
            (&eighty, "57edf4a22be3c955ac49da2e2107b67a"),
        ];
        for (message, digest) in suite {
            assert_eq!(hexadecimal(&md5(message.as_bytes())), digest, "{message}");
        }
    }
}
