//! Links set up in every way, with and without a key: 36 comes before 30.

use super::link_ciphered::{set, talk, their_nonce, CIPHERS, KEY, KEY_ID, POINT};
use super::link_ciphered_nonces::answered;
use super::link_sending::Sending;
use super::link_settings;
use super::link_talk::{Talk, OPEN, SIDES, TIME};
use super::records::other;
use crate::generator::Generator;
use crate::keys::LONGEST_KEY;
use crate::link::{Cipher, Settings};
use crate::message::Side;

const SHORT: [usize; 7] = [0, 1, 4, 31, 32, 33, 64];
const LONG: [usize; 3] = [LONGEST_KEY, LONGEST_KEY + 1, link_settings::LONGEST];

pub fn push(records: &mut Vec<u8>) {
    let mut generator = Generator::new(0xA9_03);
    for side in SIDES {
        for cipher in CIPHERS {
            for length in SHORT {
                for lowest in [0, 2, 3, 255] {
                    let settings = with_lowest(side, cipher, lowest);
                    one(records, settings, &key(&mut generator, length));
                    one(records, settings, &vec![0; length]);
                }
            }
            for length in LONG {
                // A long key is stored whole: one good setting, one bad.
                for lowest in [2, 3] {
                    let settings = with_lowest(side, cipher, lowest);
                    one(records, settings, &key(&mut generator, length));
                }
            }
            zeros_in_front(records, &mut generator, side, cipher);
            throughout(records, side, cipher);
        }
        clear_with_only(records, side);
        not_inherited(records, side);
    }
}

fn with_lowest(side: Side, cipher: Cipher, lowest_version: u8) -> Settings {
    Settings {
        lowest_version,
        ..set(side, cipher)
    }
}

/// Its KeyID is not zero.
fn key(generator: &mut Generator, length: usize) -> Vec<u8> {
    let mut key = generator.bytes(length);
    if let Some(first) = key.first_mut() {
        *first |= 1;
    }
    key
}

/// A clear link, then this set-up, and which of the two links is there. The
/// clear one is of the other side, so its answer to an empty receive differs.
fn one(records: &mut Vec<u8>, settings: Settings, key: &[u8]) {
    let theirs = Settings::new(other(settings.side), true);
    if link_settings::set_up(settings, key).is_ok() {
        let mut talk = Talk::with_keys((settings, key), (theirs, &[]));
        talk.tell();
        talk.send_in(76, &Sending::nonce_with(TIME, POINT));
        talk.store(records);
    } else {
        let mut talk = Talk::new(theirs.side, (true, true));
        talk.refused_with_key(settings, key);
        talk.tell();
        talk.store(records);
    }
}

/// Each set of the four bytes that is 0, with nothing but zeros behind or not.
fn zeros_in_front(records: &mut Vec<u8>, generator: &mut Generator, side: Side, cipher: Cipher) {
    for lowest in [0, 3] {
        for nonzero in 0..16 {
            let mut key = generator.bytes(32);
            for (place, byte) in key[..4].iter_mut().enumerate() {
                *byte = if nonzero >> place & 1 == 1 {
                    *byte | 1
                } else {
                    0
                };
            }
            one(records, with_lowest(side, cipher, lowest), &key);
        }
    }
}

/// Set-ups that are refused leave a link what it is, ciphered or not.
fn throughout(records: &mut Vec<u8>, side: Side, cipher: Cipher) {
    for refused in CIPHERS {
        let mut talk = talk(side, cipher);
        for packets in 0..=OPEN {
            talk.open_until(packets);
            talk.refused_with_key(set(side, refused), &[1; 31]);
            talk.tell();
            talk.refused_with_key(with_lowest(other(side), refused, 3), &KEY);
            talk.tell();
            if refused != Cipher::ClearOnly {
                talk.refused_set_up(set(side, refused));
                talk.refused_set_up(with_lowest(side, refused, 3));
            }
        }
        talk.send(&Sending::ping(1));
        talk.flush(13);
        talk.refused_with_key(set(side, refused), &[0; 32]);
        talk.pass(other(side), &Sending::pong());
        talk.tell();
        talk.store(records);
    }
}

/// Without the cipher, the byte that tells cipher only from either has no
/// meaning: no key is needed, and the link goes clear.
fn clear_with_only(records: &mut Vec<u8>, side: Side) {
    let ours = set(side, Cipher::ClearOnly);
    let theirs = Settings::new(other(side), true);
    for key in [&[][..], &KEY] {
        for encryption in [0, 1, 2, 3] {
            let talk = Talk::clear_with_only((ours, key), (theirs, &[]));
            let body = their_nonce(encryption, 2, TIME, KEY_ID);
            answered(records, talk, POINT, &body);
        }
        let mut talk = Talk::clear_with_only((ours, key), (theirs, &[]));
        let too_high = with_lowest(side, Cipher::ClearOnly, 3);
        talk.refused_with_only(too_high, true, key);
        talk.refused_with_only(too_high, true, &[5; 31]);
        talk.refused_with_only(ours, true, &[0; 32]);
        talk.open_until(OPEN);
        talk.tell();
        talk.send(&Sending::ping(2));
        talk.flush(13);
        talk.store(records);
    }
}

/// A ciphered link, then new ones, which are not.
fn not_inherited(records: &mut Vec<u8>, side: Side) {
    for packets in 1..=OPEN {
        let mut ciphered = talk(side, Cipher::CipherOnly);
        ciphered.open_until(packets);
        ciphered.tell();
        ciphered.store(records);
        let mut new = Talk::new(side, (true, true));
        new.tell();
        new.open_until(OPEN);
        new.tell();
        new.flush(13);
        new.store(records);
    }
}
