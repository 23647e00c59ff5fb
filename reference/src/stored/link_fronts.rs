//! Faults in what stands around a body: length, number, type, checksum.

use super::link_talk::{at_each_receive, Talk, OPEN, SETTINGS, SIDES};
use super::message_reads::{header_values, TYPES};
use crate::checksum::{CRC32, CRC32C};
use crate::generator::Generator;
use crate::link::packet::{self, HANDSHAKE, NONCE, PING, PONG};
use crate::message::Side;
use crate::numbers::read_u32;

pub fn push(records: &mut Vec<u8>, generator: &mut Generator) {
    for talk in at_each_receive((true, true)) {
        lengths(records, &talk);
        filled_lengths(records, generator, &talk);
        numbers(records, generator, &talk);
        types(records, generator, &talk);
        wrong_twice(records, &talk);
    }
    for settings in SETTINGS {
        for talk in at_each_receive(settings) {
            wrong_polynomial(records, &talk);
        }
    }
    for settings in [(true, true), (false, true)] {
        for talk in at_each_receive(settings) {
            flips(records, generator, &talk);
        }
    }
    for side in SIDES {
        any_type_after_the_opening(records, generator, side);
    }
}

/// `bytes` lent at the point where `talk` stands.
fn store(records: &mut Vec<u8>, talk: &Talk, bytes: &[u8]) {
    let mut talk = talk.clone();
    talk.receive(bytes);
    talk.store(records);
}

const LENGTHS: [u32; 28] = [
    0,
    1,
    4,
    12,
    15,
    16,
    17,
    24,
    76,
    255,
    256,
    1022,
    1023,
    1024,
    1025,
    65_535,
    65_536,
    16_777_214,
    16_777_215,
    16_777_216,
    16_777_217,
    0x0100_0010,
    0x7fff_ffff,
    0x8000_0000,
    0x8000_0010,
    0xffff_ff10,
    0xffff_fff0,
    0xffff_ffff,
];

/// A length before a sound front or a wrong one, with 4 and with 12 bytes:
/// the length is judged first, and alone.
fn lengths(records: &mut Vec<u8>, talk: &Talk) {
    let sound = talk.clone().next_packet();
    for length in LENGTHS {
        let length = length.to_le_bytes();
        let mut patient = talk.clone();
        patient.receive(&length[..3]);
        patient.receive(&length);
        patient.receive(&[&length, &sound[4..11]].concat());
        patient.receive(&[&length, &sound[4..12]].concat());
        patient.store(records);
        store(records, talk, &[&length[..], &[0x5a; 8]].concat());
    }
}

/// Whole packets of lengths at the limits, with a checksum that is right for
/// them.
fn filled_lengths(records: &mut Vec<u8>, generator: &mut Generator, talk: &Talk) {
    let sound = talk.clone().next_packet();
    let packet_type = read_u32(&sound, 8);
    for size in [0, 1, 1007, 1008] {
        let mut body = sound[12..sound.len() - 4].to_vec();
        while body.len() < size {
            body.push(generator.byte());
        }
        body.truncate(size);
        store(records, talk, &talk.forged(packet_type, &body));
    }
    // One byte less than a packet can have, though its checksum fits.
    let mut short = [&15_u32.to_le_bytes(), &sound[4..11]].concat();
    short.extend(CRC32.of(&short).to_le_bytes());
    store(records, talk, &short);
}

/// Numbers other than the expected one, with 12 bytes and with all, and a
/// wrong type behind the wrong number.
fn numbers(records: &mut Vec<u8>, generator: &mut Generator, talk: &Talk) {
    let expected = talk.number();
    let near = [0, 1, 2, 3, u32::MAX - 2, u32::MAX - 1, u32::MAX, 1 << 31];
    let far = [expected ^ 0x100, expected ^ 0x8000_0000];
    let random = (0..3).map(|_| generator.draw() as u32);
    let off = [expected.wrapping_add(1), expected.wrapping_sub(1)];
    let sound = talk.clone().next_packet();
    let packet_type = read_u32(&sound, 8);
    let (_, body) = sound[..sound.len() - 4].split_at(12);
    for number in near.into_iter().chain(far).chain(off).chain(random) {
        let packet = packet::whole(number, packet_type, body, CRC32);
        store(records, talk, &packet[..12]);
        let wrong_type = packet::whole(number, NONCE ^ HANDSHAKE, body, CRC32);
        store(records, talk, &wrong_type);
    }
    let late = packet::whole(expected.wrapping_add(1), packet_type, body, CRC32);
    store(records, talk, &late);
}

/// Every type that means something and some that do not; in the opening all
/// but one are refused, even before the body is there.
fn types(records: &mut Vec<u8>, generator: &mut Generator, talk: &Talk) {
    let known = [NONCE, HANDSHAKE, PING, PONG].into_iter().chain(TYPES);
    let other = [0, 1, u32::MAX, generator.draw() as u32];
    let sound = talk.clone().next_packet();
    let body = &sound[12..sound.len() - 4];
    for packet_type in known.chain(other) {
        let packet = talk.forged(packet_type, body);
        store(records, talk, &packet[..12]);
        store(records, talk, &packet);
    }
}

/// After the opening a link takes any type but two, and leaves the rest to
/// the message reader: types of the wrong way, and types of no message.
fn any_type_after_the_opening(records: &mut Vec<u8>, generator: &mut Generator, side: Side) {
    let mut talk = Talk::after(OPEN, side, (true, true));
    let bits = (0..32).map(|bit| NONCE ^ 1 << bit);
    for packet_type in bits.chain(TYPES).chain(header_values()) {
        let size = generator.below(12) as usize;
        talk.receive_forged(packet_type, &generator.bytes(size));
    }
    talk.receive_forged(NONCE, &[0; 60]);
    talk.store(records);
}

/// Both checksums at every stage, of which one is right: the Handshake itself
/// is under CRC-32 even where CRC-32C is offered. And two that are none.
fn wrong_polynomial(records: &mut Vec<u8>, talk: &Talk) {
    let mut sound = talk.clone().next_packet();
    let end = sound.len() - 4;
    for polynomial in [CRC32, CRC32C] {
        let sum = polynomial.of(&sound[..end]);
        sound[end..].copy_from_slice(&sum.to_le_bytes());
        store(records, talk, &sound);
    }
    for sum in [0, u32::MAX] {
        sound[end..].copy_from_slice(&u32::to_le_bytes(sum));
        store(records, talk, &sound);
    }
}

/// A wrong type or a wrong body under a wrong checksum.
fn wrong_twice(records: &mut Vec<u8>, talk: &Talk) {
    for packet_type in [NONCE, HANDSHAKE, PING, PONG] {
        let mut packet = talk.forged(packet_type, &[1; 9]);
        packet[20] ^= 4;
        store(records, talk, &packet);
        store(records, talk, &packet[..15]);
    }
}

/// One bit wrong, once in every byte.
fn flips(records: &mut Vec<u8>, generator: &mut Generator, talk: &Talk) {
    let sound = talk.clone().next_packet();
    for place in 0..sound.len() {
        let mut flipped = sound.clone();
        flipped[place] ^= 1 << generator.below(8);
        store(records, talk, &flipped);
    }
}
