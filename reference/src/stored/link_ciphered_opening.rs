//! The opening of ciphered links: Nonces without padding, Handshakes with zeros
//! behind them and no words before them.

use super::link_bodies::sized;
use super::link_ciphered::{after, their_nonce, KEY_ID};
use super::link_padded::{store, words, ENOUGH};
use super::link_padded_cuts::{every_beginning, WRONG};
use super::link_sending::Sending;
use super::link_talk::{receiving, SIDES, TIME};
use crate::generator::Generator;
use crate::link::packet::{HANDSHAKE, NONCE, PING};
use crate::link::{handshake_body, Cipher};
use crate::message::Side;

pub fn push(records: &mut Vec<u8>) {
    let mut generator = Generator::new(0xA9_04);
    for side in SIDES {
        words_before(records, side);
        nonces(records, &mut generator, side);
        for size in 28..=32 {
            handshake(records, &mut generator, side, size);
        }
        wrong_zeros(records, &mut generator, side);
        longest(records, &mut generator, side);
    }
}

/// A length that is too short, however many there are.
fn words_before(records: &mut Vec<u8>, side: Side) {
    for packets in &receiving(side)[..2] {
        let mut talk = after(*packets, side, Cipher::CipherOnly);
        let packet = talk.next_packet();
        every_beginning(records, &talk, &packet);
        for count in [1, 3, 4] {
            store(records, &talk, &words(count));
            store(records, &talk, &[words(count), packet.clone()].concat());
        }
    }
}

/// Of every size modulo 4, with nothing, zeros and others behind: none of it
/// belongs to them.
fn nonces(records: &mut Vec<u8>, generator: &mut Generator, side: Side) {
    let packets = receiving(side)[0];
    for size in [28, 29, 30, 31, 60, 61, 62, 63, 1005, 1007] {
        for behind in [&[][..], &[0; 3], &[1, 2, 3]] {
            let mut talk = after(packets, side, Cipher::Either);
            let version = if size < 60 { 1 } else { 2 };
            let body = sized(their_nonce(1, version, TIME, KEY_ID), size, generator);
            let packet = talk.forged(NONCE, &body);
            talk.receive(&packet[..packet.len() - 1]);
            talk.tell();
            talk.receive(&[&packet[..], behind].concat());
            talk.tell();
            talk.flush(ENOUGH);
            talk.store(records);
        }
    }
}

/// In pieces; then the opening goes to its end, and a Ping each way and
/// flushes show where the link stands.
fn handshake(records: &mut Vec<u8>, generator: &mut Generator, side: Side, size: usize) {
    let packets = receiving(side)[1];
    for flag in [false, true] {
        let mut talk = after(packets, side, Cipher::Either);
        let body = handshake_body(flag, *b"THEIRtheir12", *b"youryourYOUR");
        let packet = talk.forged(HANDSHAKE, &sized(body, size, generator));
        if flag {
            every_beginning(records, &talk, &packet);
        }
        for n in 16 + size..packet.len() {
            talk.receive(&packet[..n]);
        }
        talk.receive(&[&packet[..], &words(1)].concat());
        talk.flush(ENOUGH);
        talk.open_forged(packets + 1, false);
        talk.tell();
        talk.receive_forged(PING, &[7; 8]);
        talk.send(&Sending::pong());
        talk.flush(ENOUGH);
        talk.send(&Sending::ping(3));
        talk.flush(ENOUGH);
        talk.store(records);
    }
}

/// Under a right checksum and a wrong one, with bodies that are long enough or
/// not.
fn wrong_zeros(records: &mut Vec<u8>, generator: &mut Generator, side: Side) {
    let talk = after(receiving(side)[1], side, Cipher::CipherOnly);
    let body = handshake_body(true, [3; 12], [4; 12]);
    for size in [1, 26, 27, 28, 29, 30, 31] {
        let sound = talk.forged(HANDSHAKE, &sized(body.clone(), size, generator));
        store(records, &talk, &sound);
        for place in 16 + size..sound.len() {
            for wrong in WRONG {
                let mut bytes = sound.clone();
                bytes[place] = wrong;
                store(records, &talk, &bytes);
                bytes[15 + size] ^= 1;
                store(records, &talk, &bytes);
            }
        }
    }
}

/// Up to 1,023 bytes without the zeros.
fn longest(records: &mut Vec<u8>, generator: &mut Generator, side: Side) {
    let talk = after(receiving(side)[1], side, Cipher::CipherOnly);
    for length in 1021..=1024 {
        let body = handshake_body(true, [3; 12], [4; 12]);
        let packet = talk.forged(HANDSHAKE, &sized(body, length - 16, generator));
        let mut patient = talk.clone();
        patient.receive(&packet[..length - 1]);
        if length < packet.len() {
            patient.receive(&packet[..length]);
        }
        patient.receive(&packet);
        patient.tell();
        patient.store(records);
    }
}
