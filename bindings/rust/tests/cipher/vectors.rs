//! The vectors that the standards print: FIPS 197, C.3, and NIST SP 800-38A,
//! F.2.5 and F.2.6.

use relay::cipher::{Decipher, Encipher, BLOCK};
use relay::keys::Keys;
use relay::Refusal;

/// The bytes that these hexadecimal digits say.
fn bytes(digits: &str) -> Vec<u8> {
    let byte = |at: usize| u8::from_str_radix(&digits[at..at + 2], 16).unwrap();
    (0..digits.len()).step_by(2).map(byte).collect()
}

/// Both directions under one key and vector.
fn both(key: &str, vector: &str) -> (Encipher, Decipher) {
    let keys = Keys {
        message: &mut [],
        key: bytes(key).try_into().unwrap(),
        vector: bytes(vector).try_into().unwrap(),
    };
    (Encipher::new(&keys), Decipher::new(&keys))
}

const KEY: &str = "603deb1015ca71be2b73aef0857d77811f352c073b6108d72d9810a30914dff4";
const VECTOR: &str = "000102030405060708090a0b0c0d0e0f";
const CLEAR: &str = "6bc1bee22e409f96e93d7e117393172aae2d8a571e03ac9c9eb76fac45af8e51\
                     30c81c46a35ce411e5fbc1191a0a52eff69f2445df4f9b17ad2b417be66c3710";
const CIPHERED: &str = "f58c4c04d6e5f1ba779eabfb5f7bfbd69cfc4e967edb808d679f777bc6702c7d\
                        39f23369a9d9bacfa530e26304231461b2eb05e2c39be9fcda6c19078c6a9d1b";

#[test]
fn one_block() {
    let key = "000102030405060708090a0b0c0d0e0f101112131415161718191a1b1c1d1e1f";
    let (mut encipher, mut decipher) = both(key, &"0".repeat(32));
    let mut block = bytes("00112233445566778899aabbccddeeff");
    encipher.encipher(&mut block).unwrap();
    assert_eq!(block, bytes("8ea2b7ca516745bfeafc49904b496089"));
    decipher.decipher(&mut block).unwrap();
    assert_eq!(block, bytes("00112233445566778899aabbccddeeff"));
}

/// In every cutting into whole blocks, each call going on where the last ended.
#[test]
fn four_blocks_in_a_chain() {
    let (clear, ciphered) = (bytes(CLEAR), bytes(CIPHERED));
    for cuts in 0..8 {
        let (mut encipher, mut decipher) = both(KEY, VECTOR);
        let (mut forth, mut back) = (clear.clone(), ciphered.clone());
        let mut from = 0;
        for block in 1..=4 {
            if block == 4 || cuts & (1 << (block - 1)) != 0 {
                let part = from..block * BLOCK;
                encipher.encipher(&mut forth[part.clone()]).unwrap();
                decipher.decipher(&mut back[part.clone()]).unwrap();
                from = part.end;
            }
        }
        assert_eq!((forth, back), (ciphered.clone(), clear.clone()), "{cuts}");
    }
}

/// 37 leaves bytes and vector, so that all goes on as if it had not been asked.
#[test]
fn what_is_not_whole_blocks_is_refused_and_leaves_all() {
    let (mut encipher, mut decipher) = both(KEY, VECTOR);
    let (mut forth, mut back) = (bytes(CLEAR), bytes(CIPHERED));
    for n in (0..64).filter(|n| n % BLOCK != 0) {
        let (clear, ciphered) = (forth.clone(), back.clone());
        let refused = Err(Refusal::NOT_WHOLE_BLOCKS);
        assert_eq!(encipher.encipher(&mut forth[..n]), refused);
        assert_eq!(decipher.decipher(&mut back[..n]), refused);
        assert_eq!((&forth, &back), (&clear, &ciphered));
    }
    assert_eq!(encipher.encipher(&mut []), Ok(()));
    assert_eq!(decipher.decipher(&mut []), Ok(()));
    encipher.encipher(&mut forth).unwrap();
    decipher.decipher(&mut back).unwrap();
    assert_eq!((forth, back), (bytes(CIPHERED), bytes(CLEAR)));
}

#[test]
fn no_secret_is_shown() {
    let (encipher, decipher) = both(KEY, VECTOR);
    assert_eq!(format!("{encipher:?}"), "Encipher { .. }");
    assert_eq!(format!("{decipher:?}"), "Decipher { .. }");
    let key = relay::keys::Key::new(b"secret");
    assert_eq!(format!("{key:?}"), "Key { .. }");
    assert_eq!(key.bytes(), b"secret");
}
