//! Keys of a link: digests, derivations, set-up with a key, and two ends that
//! derive the same keys.

mod derivations;
mod digests;
mod exchange;
mod parts;
mod refusals;
mod secrets;
mod set_up;
mod vectors;

use relay::Side;

const SIDES: [Side; 2] = [Side::Client, Side::Server];

/// The bytes that these hexadecimal digits say.
fn bytes(digits: &str) -> Vec<u8> {
    assert_eq!(digits.len() % 2, 0, "{digits}");
    let byte = |at: usize| u8::from_str_radix(&digits[at..at + 2], 16).unwrap();
    (0..digits.len()).step_by(2).map(byte).collect()
}

/// So many bytes, each another than the 255 before it.
fn pattern(n: usize) -> Vec<u8> {
    (0..n).map(|i| (i * 7 + 3) as u8).collect()
}
