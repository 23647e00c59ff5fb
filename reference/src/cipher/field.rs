//! The field of 256 elements of FIPS 197, section 4: a byte is a polynomial,
//! its bits the coefficients; products are taken modulo x^8+x^4+x^3+x+1.

use std::sync::OnceLock;

/// Without x^8, which falls out of the byte.
const POLYNOMIAL: u8 = 0x1b;

/// The product with x.
pub fn times_x(element: u8) -> u8 {
    let overflows = element & 0x80 != 0;
    element << 1 ^ if overflows { POLYNOMIAL } else { 0 }
}

/// The sum of `one` times x^i over the bits i of `other`.
pub fn product(mut one: u8, mut other: u8) -> u8 {
    let mut sum = 0;
    while other != 0 {
        if other & 1 == 1 {
            sum ^= one;
        }
        one = times_x(one);
        other >>= 1;
    }
    sum
}

/// The element whose product with this one is 1; 0 for 0, which has none.
pub fn inverse(element: u8) -> u8 {
    static INVERSES: OnceLock<[u8; 256]> = OnceLock::new();
    INVERSES.get_or_init(inverses)[usize::from(element)]
}

/// Found by trying all.
fn inverses() -> [u8; 256] {
    std::array::from_fn(|element| {
        let is_inverse = |other: &u8| product(element as u8, *other) == 1;
        (0..=255).find(is_inverse).unwrap_or(0)
    })
}

#[cfg(test)]
mod tests {
    use super::*;

    /// Those of FIPS 197, sections 4.2 and 4.2.1 (its first edition).
    #[test]
    fn printed_products() {
        assert_eq!(product(0x57, 0x83), 0xc1);
        assert_eq!(product(0x83, 0x57), 0xc1);
        assert_eq!(product(0x57, 0x13), 0xfe);
        let powers = [0x02, 0x04, 0x08, 0x10].map(|power| product(0x57, power));
        assert_eq!(powers, [0xae, 0x47, 0x8e, 0x07]);
    }

    #[test]
    fn every_element_but_0_has_one_inverse() {
        assert_eq!(inverse(0), 0);
        for element in 1..=255 {
            assert_eq!(product(element, inverse(element)), 1);
            assert_eq!(inverse(inverse(element)), element);
        }
        assert_eq!((inverse(1), inverse(0x53)), (1, 0xca));
    }

    /// By Fermat's theorem for the field: no search.
    #[test]
    fn inverses_are_powers() {
        for element in 0..=255 {
            let power = (0..254).fold(1, |power, _| product(power, element));
            assert_eq!(power, inverse(element));
        }
    }
}
