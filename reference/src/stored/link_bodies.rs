//! Nonces and Handshakes with bodies of every kind.

use super::link_sending::Sending;
use super::link_talk::{Talk, OPEN, SETTINGS, SIDES, TIME};
use crate::generator::Generator;
use crate::link::packet::{HANDSHAKE, NONCE, PING, PONG};
use crate::link::{handshake_body, nonce_body, FLAG_CRC32C};
use crate::message::Side;

pub fn push(records: &mut Vec<u8>, generator: &mut Generator) {
    for side in SIDES {
        nonce_sizes(records, generator, side);
        nonce_values(records, side);
        nonce_faults_together(records, side);
        nonce_changes(records, generator, side);
        for settings in SETTINGS {
            handshakes(records, generator, side, settings);
        }
        handshake_bits(records, side);
        handshake_changes(records, generator, side);
        ping_sizes(records, generator, side);
    }
}

/// A Nonce body with the fields that are heeded.
pub fn nonce(encryption: u8, version: u8, time: u32) -> Vec<u8> {
    let mut body = nonce_body(version, time, *b"theirs: sixteen.");
    body[4] = encryption;
    body
}

/// Cut or drawn out to `size`.
pub fn sized(mut body: Vec<u8>, size: usize, generator: &mut Generator) -> Vec<u8> {
    while body.len() < size {
        body.push(generator.byte());
    }
    body.truncate(size);
    body
}

pub fn store_nonce(records: &mut Vec<u8>, side: Side, body: &[u8]) {
    store_answered(records, Talk::new(side, (true, true)), body);
}

/// The link gets this Nonce; if it takes it, the opening goes on, so that the
/// version it answers with is seen.
pub fn store_answered(records: &mut Vec<u8>, mut talk: Talk, body: &[u8]) {
    talk.open_until(usize::from(talk.side == Side::Client));
    talk.receive_forged(NONCE, body);
    if !talk.is_closed() {
        talk.send(&match talk.side {
            Side::Client => Sending::handshake(),
            Side::Server => Sending::nonce(TIME),
        });
    }
    talk.store(records);
}

fn nonce_sizes(records: &mut Vec<u8>, generator: &mut Generator, side: Side) {
    for version in [0, 1, 2, 3, 255] {
        for size in [0, 1, 4, 5, 6, 12, 27, 28, 29, 32, 59, 60, 61, 100] {
            let body = sized(nonce(0, version, TIME), size, generator);
            store_nonce(records, side, &body);
        }
    }
}

fn nonce_values(records: &mut Vec<u8>, side: Side) {
    for encryption in [0, 1, 2, 3, 127, 128, 254, 255] {
        for version in [0, 1, 2, 3, 4, 128, 255] {
            store_nonce(records, side, &nonce(encryption, version, TIME));
        }
    }
}

/// Every set of the four faults, of which the first in order is given.
fn nonce_faults_together(records: &mut Vec<u8>, side: Side) {
    for faults in 0..16 {
        let has = |fault: u8| faults >> fault & 1 == 1;
        let time = if has(0) { TIME + 31 } else { TIME };
        let version = if has(1) { 3 } else { 2 };
        let mut body = nonce(u8::from(has(2)), version, time);
        if has(3) {
            body.truncate(59);
        }
        store_nonce(records, side, &body);
    }
}

/// Every byte of the body changed under a right checksum. Most do not matter.
fn nonce_changes(records: &mut Vec<u8>, generator: &mut Generator, side: Side) {
    for place in 0..60 {
        let mut body = nonce(0, 2, TIME);
        body[place] ^= 1 << generator.below(8);
        store_nonce(records, side, &body);
    }
}

/// The link gets this Handshake; if it takes it, the opening goes to its end,
/// and a Ping each way shows which checksum holds.
fn store_handshake(records: &mut Vec<u8>, side: Side, settings: (bool, bool), body: &[u8]) {
    let packets = 2 + usize::from(side == Side::Client);
    let mut talk = Talk::after(packets, side, settings);
    talk.receive_forged(HANDSHAKE, body);
    if !talk.is_closed() {
        talk.open_forged(packets + 1, false);
        talk.receive_forged(PING, &[7; 8]);
        talk.send(&Sending::ping(1));
    }
    talk.store(records);
}

/// Short and long ones, with the flag and without it, whatever the settings
/// allow: a client that did not offer CRC-32C refuses it.
fn handshakes(
    records: &mut Vec<u8>,
    generator: &mut Generator,
    side: Side,
    settings: (bool, bool),
) {
    for flag in [false, true] {
        let body = handshake_body(flag, *b"THEIRtheir12", *b"youryourYOUR");
        for size in [0, 1, 3, 4, 27, 28, 29, 60, 200] {
            let body = sized(body.clone(), size, generator);
            store_handshake(records, side, settings, &body);
        }
    }
}

/// Each flag bit, alone and with the one that is heeded.
fn handshake_bits(records: &mut Vec<u8>, side: Side) {
    for settings in [(true, true), (false, true)] {
        for bit in 0..32 {
            for flags in [1 << bit, 1 << bit | FLAG_CRC32C] {
                let mut body = handshake_body(false, [3; 12], [4; 12]);
                body[..4].copy_from_slice(&u32::to_le_bytes(flags));
                store_handshake(records, side, settings, &body);
            }
        }
    }
}

fn handshake_changes(records: &mut Vec<u8>, generator: &mut Generator, side: Side) {
    for place in 0..28 {
        let mut body = handshake_body(true, [3; 12], [4; 12]);
        body[place] ^= 1 << generator.below(8);
        store_handshake(records, side, (true, true), &body);
    }
}

/// Other sizes than 8 bytes, in turn or not: the size is judged first.
fn ping_sizes(records: &mut Vec<u8>, generator: &mut Generator, side: Side) {
    for size in [0, 1, 4, 7, 9, 12, 16, 1008] {
        for packet_type in [PING, PONG] {
            for in_turn in [false, true] {
                let mut talk = Talk::after(OPEN, side, (true, true));
                match (packet_type, in_turn) {
                    (PING, false) => talk.receive_forged(PING, &[5; 8]),
                    (PONG, true) => talk.send(&Sending::ping(6)),
                    _ => {}
                }
                talk.receive_forged(packet_type, &generator.bytes(size));
                talk.store(records);
            }
        }
    }
}
