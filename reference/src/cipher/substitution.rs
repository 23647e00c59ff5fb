//! FIPS 197's substitution of a byte: the inverse in the field, then an affine
//! step. Bit i of the step's result is the sum of the bits i, i+4, i+5, i+6
//! and i+7 of the byte, counted modulo 8, and of bit i of a constant.

use super::field::inverse;

const CONSTANT: u8 = 0x63;

pub fn substitute(byte: u8) -> u8 {
    affine(inverse(byte))
}

pub fn substitute_back(byte: u8) -> u8 {
    inverse(affine_back(byte))
}

/// Bit i of a byte turned right by n is its bit i+n.
fn affine(byte: u8) -> u8 {
    let turned = |n| byte.rotate_right(n);
    byte ^ turned(4) ^ turned(5) ^ turned(6) ^ turned(7) ^ CONSTANT
}

/// Without the constant, the sum of the bits i+2, i+5 and i+7.
fn affine_back(byte: u8) -> u8 {
    let linear = byte ^ CONSTANT;
    let turned = |n| linear.rotate_right(n);
    turned(2) ^ turned(5) ^ turned(7)
}

#[cfg(test)]
mod tests {
    use super::*;

    /// Four that FIPS 197 shows, the byte 53 in section 5.1.1.
    #[test]
    fn printed_substitutes() {
        assert_eq!(
            [0x53, 0x00, 0x01, 0xff].map(substitute),
            [0xed, 0x63, 0x7c, 0x16]
        );
    }

    /// The step as the standard writes it, with an index for each bit.
    #[test]
    fn the_affine_step_bit_by_bit() {
        for byte in 0..=255_u8 {
            let bit = |of: u8, i: u32| of >> (i % 8) & 1;
            let stepped = (0..8).fold(0, |stepped, i| {
                let bits = [0, 4, 5, 6, 7].map(|n| bit(byte, i + n));
                let sum = bits.iter().fold(bit(CONSTANT, i), |sum, bit| sum ^ bit);
                stepped | sum << i
            });
            assert_eq!(affine(byte), stepped);
        }
    }

    #[test]
    fn back_undoes_it_and_no_byte_stays() {
        for byte in 0..=255 {
            assert_eq!(substitute_back(substitute(byte)), byte);
            assert_eq!(substitute(substitute_back(byte)), byte);
            assert_ne!(substitute(byte), byte);
        }
    }
}
