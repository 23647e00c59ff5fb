//! Nonces of every kind for links set in every way: what is taken and refused,
//! and what is answered.

use super::link_ciphered::{set, their_nonce, CIPHERS, KEY, KEY_ID, OTHER_KEY_ID, POINT};
use super::link_sending::Sending;
use super::link_talk::{Talk, SIDES, TIME};
use super::records::other;
use crate::link::packet::NONCE;
use crate::link::{Cipher, Settings};
use crate::message::Side;

const ENCRYPTIONS: [u8; 7] = [0, 1, 2, 3, 4, 128, 255];
const MORE_ENCRYPTIONS: [u8; 10] = [5, 8, 16, 17, 32, 64, 127, 129, 192, 254];
const KEY_IDS: [[u8; 4]; 3] = [KEY_ID, OTHER_KEY_ID, [0; 4]];

pub fn push(records: &mut Vec<u8>) {
    for side in SIDES {
        for cipher in CIPHERS {
            for encryption in ENCRYPTIONS {
                for key_id in KEY_IDS {
                    for version in 0..=3 {
                        both(records, side, cipher, encryption, version, key_id);
                    }
                }
            }
            for encryption in MORE_ENCRYPTIONS {
                let body = their_nonce(encryption, 2, TIME, KEY_ID);
                answered(records, talk(side, cipher), POINT, &body);
            }
            key_id_bits(records, side, cipher);
            points(records, side, cipher);
        }
    }
}

/// With points and without: ours by what the link is told to send, theirs by a
/// body that ends before it where its version allows. A clear link has a key
/// in the first case, which is nowhere seen.
fn both(
    records: &mut Vec<u8>,
    side: Side,
    cipher: Cipher,
    encryption: u8,
    version: u8,
    key_id: [u8; 4],
) {
    let body = their_nonce(encryption, version, TIME, key_id);
    answered(records, talk(side, cipher), &POINT[..32], &body);
    let without = match cipher {
        Cipher::ClearOnly => Talk::set_up(set(side, cipher), Settings::new(other(side), true)),
        _ => talk(side, cipher),
    };
    let size = if version < 2 { 28 } else { 60 };
    answered(records, without, b"", &body[..size]);
}

/// The peer is not asked: the bytes are forged.
fn talk(side: Side, cipher: Cipher) -> Talk {
    let theirs = Settings::new(other(side), true);
    Talk::with_keys((set(side, cipher), &KEY), (theirs, &[]))
}

/// The link gets this Nonce and tells; if it took it, what it sends next, which
/// has the answer if it is a server's Nonce.
pub fn answered(records: &mut Vec<u8>, mut talk: Talk, point: &[u8], body: &[u8]) {
    if talk.side == Side::Client {
        talk.send(&Sending::nonce_with(TIME, point));
    }
    talk.receive_forged(NONCE, body);
    talk.tell();
    if !talk.is_closed() {
        talk.send(&match talk.side {
            Side::Client => Sending::handshake(),
            Side::Server => Sending::nonce_with(TIME, point),
        });
        talk.tell();
    }
    talk.store(records);
}

/// Each bit of the KeyID wrong, with the cipher chosen if the setting allows
/// it.
fn key_id_bits(records: &mut Vec<u8>, side: Side, cipher: Cipher) {
    let encryption = u8::from(cipher != Cipher::ClearOnly);
    for bit in 0..32 {
        let mut key_id = KEY_ID;
        key_id[bit / 8] ^= 1 << (bit % 8);
        let body = their_nonce(encryption, 2, TIME, key_id);
        answered(records, talk(side, cipher), POINT, &body);
    }
    let mut turned = KEY_ID;
    turned.reverse();
    let body = their_nonce(encryption, 2, TIME, turned);
    answered(records, talk(side, cipher), POINT, &body);
}

/// Points cut off, whose other bytes are 0, and with bytes behind, which have
/// no meaning.
fn points(records: &mut Vec<u8>, side: Side, cipher: Cipher) {
    for encryption in [0, 1, 2] {
        for length in [0, 1, 16, 31, 32, 33] {
            let body = their_nonce(encryption, 2, TIME, KEY_ID);
            answered(records, talk(side, cipher), &POINT[..length], &body);
        }
    }
}
