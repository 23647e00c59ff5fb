//! Links that may go ciphered (document 02, A9): what their conversations have
//! in common. The bytes are those of the driver's side, before enciphering and
//! after deciphering.

use super::link_bodies::nonce;
use super::link_ciphered_faults;
use super::link_ciphered_nonces;
use super::link_ciphered_opening;
use super::link_ciphered_pairs;
use super::link_ciphered_random;
use super::link_ciphered_set_ups;
use super::link_ciphered_stream;
use super::link_talk::{Talk, OPEN};
use super::records::other;
use crate::link::{Cipher, Settings};
use crate::message::Side;

pub const CIPHERS: [Cipher; 3] = [Cipher::ClearOnly, Cipher::CipherOnly, Cipher::Either];

pub const KEY: [u8; 32] = *b"key of both ends, thirty-two: 32";

/// Its KeyID differs in one bit.
pub const OTHER_KEY: [u8; 32] = *b"keY of the other end, also 32...";

pub const KEY_ID: [u8; 4] = *b"key ";
pub const OTHER_KEY_ID: [u8; 4] = *b"keY ";

pub const POINT: &[u8] = b"ours: a point of thirty-two bytes";

pub fn push(records: &mut Vec<u8>) {
    link_ciphered_nonces::push(records);
    link_ciphered_faults::push(records);
    link_ciphered_set_ups::push(records);
    link_ciphered_opening::push(records);
    link_ciphered_pairs::push(records);
    link_ciphered_stream::push(records);
    link_ciphered_random::push(records);
}

pub fn set(side: Side, cipher: Cipher) -> Settings {
    Settings {
        cipher,
        ..Settings::new(side, true)
    }
}

/// A link set like this, with the key, and a peer that is set to either.
pub fn talk(side: Side, cipher: Cipher) -> Talk {
    let theirs = set(other(side), Cipher::Either);
    Talk::with_keys((set(side, cipher), &KEY), (theirs, &KEY)).with_point(&POINT[..32])
}

/// A ciphered one with the first `packets` of the opening exchanged.
pub fn after(packets: usize, side: Side, cipher: Cipher) -> Talk {
    assert!(cipher != Cipher::ClearOnly);
    let mut talk = talk(side, cipher);
    talk.open_until(packets);
    talk
}

pub fn open(side: Side) -> Talk {
    after(OPEN, side, Cipher::Either)
}

/// Their Nonce with a KeyID and a point.
pub fn their_nonce(encryption: u8, version: u8, time: u32, key_id: [u8; 4]) -> Vec<u8> {
    let mut body = nonce(encryption, version, time);
    body[..4].copy_from_slice(&key_id);
    body[28..].copy_from_slice(b"theirs: a point of the same size");
    body
}
