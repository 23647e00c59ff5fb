//! Nonces with several faults at once, of which the first in order is given,
//! and links that a refused cipher closed.

use super::link_ciphered::{set, their_nonce, CIPHERS, KEY, KEY_ID, OTHER_KEY_ID, POINT};
use super::link_ciphered_nonces::answered;
use super::link_closing;
use super::link_sending::Sending;
use super::link_talk::{receiving, Talk, SIDES, TIME};
use super::records::other;
use crate::link::packet::{self, NONCE, PING};
use crate::link::{Cipher, Settings};
use crate::message::Side;

pub fn push(records: &mut Vec<u8>) {
    for side in SIDES {
        for cipher in CIPHERS {
            for lowest in [1, 2] {
                together(records, side, cipher, lowest);
            }
            around(records, side, cipher);
            closed(records, side, cipher);
        }
    }
}

fn talk(side: Side, cipher: Cipher, lowest_version: u8) -> Talk {
    let ours = Settings {
        lowest_version,
        ..set(side, cipher)
    };
    let theirs = Settings::new(other(side), true);
    Talk::with_keys((ours, &KEY), (theirs, &[]))
}

/// Every set of: a short body (for one lowest version), clocks, a low version,
/// what the settings refuse, another KeyID, and a version beyond a client's
/// offer.
fn together(records: &mut Vec<u8>, side: Side, cipher: Cipher, lowest: u8) {
    for version in [lowest - 1, lowest, 3] {
        for encryption in [0, 1, 2] {
            for key_id in [KEY_ID, OTHER_KEY_ID] {
                for time in [TIME, TIME - 31] {
                    let body = their_nonce(encryption, version, time, key_id);
                    answered(records, talk(side, cipher, lowest), POINT, &body);
                    if lowest == 2 {
                        let size = if version < 2 { 27 } else { 59 };
                        let talk = talk(side, cipher, lowest);
                        answered(records, talk, POINT, &body[..size]);
                    }
                }
            }
        }
    }
}

/// A Nonce that the link refuses for its cipher, in a packet that has a fault
/// before its body is looked at, in pieces, and with bytes behind.
fn around(records: &mut Vec<u8>, side: Side, cipher: Cipher) {
    let mut talk = talk(side, cipher, 0);
    talk.open_until(receiving(side)[0]);
    for body in refused(side, cipher) {
        let sound = talk.forged(NONCE, &body);
        let mut wrong_sum = sound.clone();
        wrong_sum[75] ^= 1;
        let (number, checksum) = talk.expected();
        let packets = [
            packet::whole(number, NONCE, &[&body[..], &[0; 948]].concat(), checksum),
            packet::whole(number ^ 1, NONCE, &body, checksum),
            packet::whole(number, PING, &body, checksum),
            wrong_sum,
            sound[..75].to_vec(),
            [&sound[..], b"behind"].concat(),
        ];
        for packet in packets {
            let mut talk = talk.clone();
            talk.receive(&packet);
            talk.tell();
            talk.store(records);
        }
    }
}

/// One that lies outside the settings, and one with another KeyID where the
/// cipher is chosen, as far as this link refuses them.
fn refused(side: Side, cipher: Cipher) -> Vec<Vec<u8>> {
    let body = |encryption, key_id| their_nonce(encryption, 2, TIME, key_id);
    match (side, cipher) {
        (Side::Server, Cipher::ClearOnly) => vec![body(1, KEY_ID)],
        (Side::Client, Cipher::ClearOnly) => vec![body(1, KEY_ID), body(2, KEY_ID)],
        (_, Cipher::CipherOnly) => vec![body(0, KEY_ID), body(1, OTHER_KEY_ID)],
        (Side::Server, Cipher::Either) => vec![body(1, OTHER_KEY_ID), body(2, [0; 4])],
        (Side::Client, Cipher::Either) => vec![body(2, KEY_ID), body(1, OTHER_KEY_ID)],
    }
}

/// All calls on a link that it closed; it tells throughout.
fn closed(records: &mut Vec<u8>, side: Side, cipher: Cipher) {
    for body in refused(side, cipher) {
        let mut talk = talk(side, cipher, 0);
        talk.open_until(receiving(side)[0]);
        talk.receive_forged(NONCE, &body);
        assert!(talk.is_closed());
        talk.tell();
        talk.flush(0);
        talk.send_in(76, &Sending::nonce_with(TIME, POINT));
        talk.tell();
        link_closing::after(records, talk);
    }
}
