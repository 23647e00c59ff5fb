//! The settings of a link in a record: side (0 client, 1 server), whether
//! CRC-32C is allowed, lowest version, whether it is padded, whether it offers
//! or takes the cipher, whether it then never goes clear, the key's length (2
//! bytes, 0 for no key) and the key.

use super::records::Records;
use crate::link::{Cipher, Link, Settings};
use crate::message::Side;
use crate::refusal::Refusal;

/// The most that a key may have here.
pub const LONGEST: usize = 4200;

pub fn push(records: &mut Vec<u8>, settings: Settings, key: &[u8]) {
    let only = settings.cipher == Cipher::CipherOnly;
    push_with_only(records, settings, only, key);
}

/// Clear links too may have the byte that tells cipher only from either; it
/// has no meaning there.
pub fn push_with_only(records: &mut Vec<u8>, settings: Settings, only: bool, key: &[u8]) {
    assert!(key.len() <= LONGEST);
    records.push((settings.side == Side::Server).into());
    records.push(settings.crc32c_allowed.into());
    records.push(settings.lowest_version);
    records.push(settings.padded.into());
    records.push((settings.cipher != Cipher::ClearOnly).into());
    records.push(only.into());
    records.extend((key.len() as u16).to_le_bytes());
    records.extend(key);
}

pub fn take<'a>(records: &mut Records<'a>) -> (Settings, &'a [u8]) {
    let settings = Settings {
        side: take_side(records),
        crc32c_allowed: records.flag(),
        lowest_version: records.u8(),
        padded: records.flag(),
        cipher: take_cipher(records),
    };
    let length = u16::from_le_bytes(records.array());
    (settings, records.bytes(length.into()))
}

fn take_cipher(records: &mut Records) -> Cipher {
    match (records.flag(), records.flag()) {
        (false, _) => Cipher::ClearOnly,
        (true, false) => Cipher::Either,
        (true, true) => Cipher::CipherOnly,
    }
}

pub fn take_side(records: &mut Records) -> Side {
    if records.flag() {
        Side::Server
    } else {
        Side::Client
    }
}

/// A key of no bytes is none.
pub fn set_up(settings: Settings, key: &[u8]) -> Result<Link, Refusal> {
    if key.is_empty() {
        Link::set_up(settings)
    } else {
        Link::set_up_with_key(settings, key)
    }
}

#[cfg(test)]
mod tests {
    use super::*;

    #[test]
    fn what_is_pushed_is_taken() {
        for cipher in [Cipher::ClearOnly, Cipher::CipherOnly, Cipher::Either] {
            for key in [&[][..], &[5; 300]] {
                let settings = Settings {
                    cipher,
                    ..Settings::new(Side::Server, true)
                };
                let mut records = Vec::new();
                push(&mut records, settings, key);
                assert_eq!(records.len(), 8 + key.len());
                let mut records = Records(&records);
                assert_eq!(take(&mut records), (settings, key));
                assert_eq!(records.op(), None);
            }
        }
    }

    #[test]
    fn a_clear_link_is_clear_whatever_only_says() {
        let settings = Settings::new(Side::Client, false);
        let mut records = Vec::new();
        push_with_only(&mut records, settings, true, b"key");
        assert_eq!(records, *b"\0\0\0\0\0\x01\x03\0key");
        assert_eq!(take(&mut Records(&records)), (settings, &b"key"[..]));
    }
}
