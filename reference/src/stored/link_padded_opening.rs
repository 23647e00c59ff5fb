//! The opening of padded links: Nonces without padding, Handshakes with zeros
//! behind them, and words, which have no place there.

use super::link_bodies::{nonce, sized};
use super::link_padded::{after, profile, store, words, ENOUGH};
use super::link_padded_cuts::{every_beginning, WRONG};
use super::link_sending::Sending;
use super::link_talk::{receiving, Talk, OPEN, SETTINGS, SIDES, TIME};
use super::records::other;
use crate::generator::Generator;
use crate::link::packet::{self, HANDSHAKE, NONCE, PING};
use crate::link::{handshake_body, Settings};
use crate::message::Side;

pub fn push(records: &mut Vec<u8>) {
    let mut generator = Generator::new(0xA70);
    for side in SIDES {
        words_before(records, side);
        words_unpadded(records, side);
        nonces(records, &mut generator, side);
        refused_nonces(records, side);
        for settings in SETTINGS {
            for size in 28..=32 {
                handshake(records, &mut generator, side, settings, size);
            }
        }
        wrong_zeros(records, &mut generator, side);
        longest(records, &mut generator, side);
    }
}

/// A word before Nonce and Handshake is a length that is too short, however
/// many there are.
fn words_before(records: &mut Vec<u8>, side: Side) {
    for packets in &receiving(side)[..2] {
        let mut talk = after(*packets, side, (true, true));
        let packet = talk.next_packet();
        for count in 1..=5 {
            let bytes = [words(count), packet.clone()].concat();
            let mut patient = talk.clone();
            patient.receive(&bytes[..3]);
            patient.receive(&bytes[..4]);
            patient.store(records);
            store(records, &talk, &words(count));
            store(records, &talk, &bytes);
        }
    }
}

/// So it is on an unpadded link at every stage, whatever its peer is.
fn words_unpadded(records: &mut Vec<u8>, side: Side) {
    for packets in receiving(side) {
        let theirs = profile(other(side), true, true);
        let mut talk = Talk::set_up(profile(side, true, false), theirs);
        talk.open_until(packets);
        let packet = talk.next_packet();
        for count in 1..=5 {
            store(records, &talk, &words(count));
            store(records, &talk, &[words(count), packet.clone()].concat());
        }
    }
}

/// Of every size modulo 4, with nothing, zeros and others behind: none of it
/// belongs to them.
fn nonces(records: &mut Vec<u8>, generator: &mut Generator, side: Side) {
    for size in [28, 29, 30, 31, 60, 61, 62, 63] {
        for behind in [&[][..], &[0; 3], &[1, 2, 3]] {
            store_nonce(records, generator, side, size, behind);
        }
    }
    for size in [1005, 1006, 1007, 1008] {
        store_nonce(records, generator, side, size, &[0; 3]);
    }
}

/// A Nonce with a body of this size; if the link takes it, the opening goes to
/// its end.
fn store_nonce(
    records: &mut Vec<u8>,
    generator: &mut Generator,
    side: Side,
    size: usize,
    behind: &[u8],
) {
    let packets = receiving(side)[0];
    let mut talk = after(packets, side, (true, true));
    let version = if size < 60 { 1 } else { 2 };
    let body = sized(nonce(0, version, TIME), size, generator);
    let packet = talk.forged(NONCE, &body);
    talk.receive(&packet[..packet.len() - 1]);
    talk.receive(&[&packet[..], behind].concat());
    if !talk.is_closed() {
        talk.open_forged(packets + 1, true);
        talk.flush(ENOUGH);
    }
    talk.store(records);
}

/// Nonces that are refused for what they say, on a link with a lowest version.
fn refused_nonces(records: &mut Vec<u8>, side: Side) {
    let ours = Settings {
        lowest_version: 2,
        ..profile(side, true, true)
    };
    for body in [
        nonce(0, 1, TIME),
        nonce(1, 2, TIME),
        nonce(0, 3, TIME),
        nonce(0, 2, TIME - 31),
        nonce(0, 2, TIME)[..59].to_vec(),
    ] {
        let mut talk = Talk::set_up(ours, profile(other(side), true, true));
        talk.open_until(receiving(side)[0]);
        talk.receive_forged(NONCE, &body);
        talk.flush(0);
        talk.store(records);
    }
}

/// A Handshake with a body of this size, in pieces; then the opening goes to its end,
/// and a Ping each way and a flush show where the link stands.
fn handshake(
    records: &mut Vec<u8>,
    generator: &mut Generator,
    side: Side,
    settings: (bool, bool),
    size: usize,
) {
    let packets = receiving(side)[1];
    let mut talk = after(packets, side, settings);
    let flag = settings == (true, true);
    let body = handshake_body(flag, *b"THEIRtheir12", *b"youryourYOUR");
    let packet = talk.forged(HANDSHAKE, &sized(body, size, generator));
    if flag {
        every_beginning(records, &talk, &packet);
    }
    for n in 16 + size..packet.len() {
        talk.receive(&packet[..n]);
    }
    talk.receive(&[&packet[..], &words(1)].concat());
    talk.flush(ENOUGH);
    talk.open_forged(packets + 1, false);
    talk.receive_forged(PING, &[7; 8]);
    talk.send(&Sending::pong());
    talk.flush(ENOUGH);
    talk.store(records);
}

/// With bodies that are long enough or not, whose flag is in the offer or not:
/// wrong zeros are seen first, a wrong checksum before them.
fn wrong_zeros(records: &mut Vec<u8>, generator: &mut Generator, side: Side) {
    let packets = receiving(side)[1];
    let talk = after(packets, side, (false, true));
    let body = handshake_body(true, [3; 12], [4; 12]);
    for size in [0, 1, 2, 3, 24, 25, 26, 27, 28, 29, 30, 31, 32] {
        let body = sized(body.clone(), size, generator);
        let sound = talk.forged(HANDSHAKE, &body);
        store(records, &talk, &sound);
        for place in 16 + size..sound.len() {
            for wrong in WRONG {
                let mut bytes = sound.clone();
                bytes[place] = wrong;
                store(records, &talk, &bytes);
                if wrong == 255 {
                    bytes[15 + size] ^= 1;
                    store(records, &talk, &bytes);
                    store(records, &talk, &bytes[..16 + size]);
                }
            }
        }
    }
}

/// Up to 1,023 bytes without the zeros, which do not count as length.
fn longest(records: &mut Vec<u8>, generator: &mut Generator, side: Side) {
    let packets = receiving(side)[1];
    let talk = after(packets, side, (true, true));
    for length in 1021..=1024 {
        let body = sized(
            handshake_body(true, [3; 12], [4; 12]),
            length - 16,
            generator,
        );
        let packet = talk.forged(HANDSHAKE, &body);
        let mut patient = talk.clone();
        for n in [4, 12, length - 1, length] {
            if n < packet.len() {
                patient.receive(&packet[..n]);
            }
        }
        patient.receive(&packet);
        if !patient.is_closed() && packets + 1 < OPEN {
            patient.open_forged(packets + 1, true);
        }
        patient.store(records);
        let mut wrong = packet.clone();
        if packet::zeros(length) > 0 {
            wrong[1023] = 1;
            store(records, &talk, &wrong);
        }
    }
}
