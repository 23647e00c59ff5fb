//! CRC-32 and CRC-32C, bit by bit over the polynomial. No tables: the shorter
//! the definition, the less there is to get wrong in the yardstick.

/// A reflected generator polynomial; its lowest bit is the highest power.
#[derive(Clone, Copy, PartialEq, Eq)]
pub struct Polynomial(u32);

pub const CRC32: Polynomial = Polynomial(0xEDB8_8320);
pub const CRC32C: Polynomial = Polynomial(0x82F6_3B78);

impl Polynomial {
    /// The checksum of `bytes`.
    pub fn of(self, bytes: &[u8]) -> u32 {
        self.update(0, bytes)
    }

    /// The checksum of `a ++ bytes`, where `previous` is the checksum of `a`.
    ///
    /// The inversion at the start undoes the final one of `previous`; for the
    /// empty `a`, whose checksum is 0, it is the inversion every checksum
    /// starts with.
    pub fn update(self, previous: u32, bytes: &[u8]) -> u32 {
        !bytes
            .iter()
            .fold(!previous, |rest, &byte| self.step(rest, byte))
    }

    fn step(self, rest: u32, byte: u8) -> u32 {
        (0..8).fold(rest ^ u32::from(byte), |rest, _| self.shift(rest))
    }

    /// Multiplies by x, modulo the polynomial.
    fn shift(self, rest: u32) -> u32 {
        let carry = rest & 1 == 1;
        (rest >> 1) ^ if carry { self.0 } else { 0 }
    }
}

#[cfg(test)]
mod tests {
    use super::*;
    use crate::generator::Generator;

    #[test]
    fn published_check_values() {
        assert_eq!(CRC32.of(b"123456789"), 0xCBF4_3926);
        assert_eq!(CRC32C.of(b"123456789"), 0xE306_9283);
        // Published with CRC-32C in the iSCSI standard.
        assert_eq!(CRC32C.of(&[0; 32]), 0x8A91_36AA);
        assert_eq!(CRC32C.of(&[0xff; 32]), 0x62A8_AB43);
    }

    #[test]
    fn empty_input_is_zero() {
        assert_eq!(CRC32.of(b""), 0);
        assert_eq!(CRC32C.of(b""), 0);
    }

    #[test]
    fn continuing_equals_the_whole_at_every_place() {
        let bytes = Generator::new(1).bytes(70);
        for polynomial in [CRC32, CRC32C] {
            for k in 0..=bytes.len() {
                let (front, back) = bytes.split_at(k);
                let continued = polynomial.update(polynomial.of(front), back);
                assert_eq!(continued, polynomial.of(&bytes));
            }
        }
    }

    /// The schoolbook form: the message as one long polynomial, not reflected,
    /// divided with remainder. Shares nothing with the form above.
    fn by_long_division(normal: u32, bytes: &[u8]) -> u32 {
        let mut bits: Vec<bool> = bytes
            .iter()
            .flat_map(|byte| (0..8).map(move |i| byte >> i & 1 == 1))
            .collect();
        bits.extend([false; 32]);
        for bit in bits.iter_mut().take(32) {
            *bit = !*bit;
        }
        for at in 0..bits.len() - 32 {
            if bits[at] {
                for i in 0..32 {
                    bits[at + 1 + i] ^= normal >> (31 - i) & 1 == 1;
                }
            }
        }
        let remainder = &bits[bits.len() - 32..];
        !(0..32).fold(0, |sum, i| sum | u32::from(remainder[i]) << i)
    }

    #[test]
    fn agrees_with_long_division() {
        let mut generator = Generator::new(2);
        for n in 0..100 {
            let bytes = generator.bytes(n);
            assert_eq!(CRC32.of(&bytes), by_long_division(0x04C1_1DB7, &bytes));
            assert_eq!(CRC32C.of(&bytes), by_long_division(0x1EDC_6F41, &bytes));
        }
    }
}
