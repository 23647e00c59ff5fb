//! Padded links at random: streams cut anywhere, flushes at any time, a byte
//! that is wrong, and packets of no peer.

use super::link_padded::{profile, words, ANY, ENOUGH};
use super::link_random::draw;
use super::link_talk::{Talk, OPEN, SETTINGS, SIDES};
use super::records::other;
use crate::generator::Generator;
use crate::link::packet::{self, NONCE, PING, PONG};

pub fn push(records: &mut Vec<u8>) {
    // Its own stream: what comes before and behind does not depend on it.
    let mut generator = Generator::new(0xA7);
    for _ in 0..200 {
        traffic(records, &mut generator);
    }
    for _ in 0..110 {
        forged(records, &mut generator);
    }
}

/// Two links that are mostly both padded.
fn drawn(generator: &mut Generator) -> Talk {
    let side = generator.pick(&SIDES);
    let (ours, theirs) = generator.pick(&SETTINGS);
    let ours = profile(side, ours, generator.below(10) > 0);
    let theirs = profile(other(side), theirs, generator.below(10) > 0);
    Talk::set_up(ours, theirs)
}

/// What the peer writes comes in lumps that have nothing to do with its
/// packets.
fn traffic(records: &mut Vec<u8>, generator: &mut Generator) {
    let mut talk = drawn(generator);
    let mut stream = Vec::new();
    for packets in 1..=OPEN {
        talk.open_until(packets);
        flushes(generator, &mut talk, &mut stream);
    }
    busy(records, generator, talk, stream);
}

/// What comes after the opening; `stream` is what the peer wrote since.
pub fn busy(records: &mut Vec<u8>, generator: &mut Generator, mut talk: Talk, mut stream: Vec<u8>) {
    for _ in 0..6 + generator.below(10) {
        step(generator, &mut talk, &mut stream);
        if talk.is_closed() {
            break;
        }
    }
    if !stream.is_empty() && generator.below(2) == 0 {
        let place = generator.below(stream.len() as u64) as usize;
        stream[place] ^= 1 << generator.below(8);
    }
    for _ in 0..2 {
        lump(generator, &mut talk, &mut stream);
    }
    talk.receive_all(&stream);
    talk.flush(ENOUGH);
    talk.store(records);
}

pub fn flushes(generator: &mut Generator, talk: &mut Talk, stream: &mut Vec<u8>) {
    match generator.below(5) {
        0 => talk.flush(generator.below(14) as usize),
        1 => stream.extend(talk.peer_flushes()),
        2 => {
            talk.flush(ENOUGH);
            stream.extend(talk.peer_flushes());
        }
        _ => {}
    }
}

fn step(generator: &mut Generator, talk: &mut Talk, stream: &mut Vec<u8>) {
    let size = generator.below(24) as usize;
    let bytes = generator.bytes(size);
    match generator.below(8) {
        0..=2 => {
            let sending = draw(generator, talk.side, &bytes);
            talk.send(&sending);
        }
        3..=5 => {
            let sending = draw(generator, other(talk.side), &bytes);
            if let Ok(packet) = talk.peer_tries(&sending) {
                stream.extend(packet);
            }
        }
        6 => lump(generator, talk, stream),
        _ => {}
    }
    flushes(generator, talk, stream);
}

/// Lends the beginning of what has come; what the link took is gone.
fn lump(generator: &mut Generator, talk: &mut Talk, stream: &mut Vec<u8>) {
    let cut = generator.below(stream.len() as u64 + 1) as usize;
    let left = talk.receive_all(&stream[..cut]).len();
    stream.drain(..cut - left);
}

/// Mostly sound packets between words, then perhaps one fault, anywhere.
fn forged(records: &mut Vec<u8>, generator: &mut Generator) {
    let mut talk = drawn(generator);
    talk.open_until(OPEN);
    let (first, checksum) = talk.expected();
    let mut bytes = Vec::new();
    for number in 0..1 + generator.below(4) as u32 {
        let packet_type = generator.pick(&[ANY, ANY, ANY, ANY, ANY, PING, PONG, NONCE]);
        let size = match packet_type {
            PING | PONG => generator.pick(&[8, 8, 8, 7, 9]),
            _ => generator.below(24) as usize,
        };
        let number = first.wrapping_add(number);
        let packet = packet::whole(number, packet_type, &generator.bytes(size), checksum);
        let count = generator.pick(&[0, 0, 0, 1, 1, 2, 2, 3, 3, 4]);
        let zeros = match generator.below(12) {
            0 => generator.below(5) as usize,
            _ => packet::zeros(packet.len()),
        };
        bytes.extend([words(count), packet, vec![0; zeros]].concat());
    }
    match generator.below(3) {
        0 => {
            let place = generator.below(bytes.len() as u64) as usize;
            bytes[place] = generator.byte();
        }
        1 => bytes.truncate(generator.below(bytes.len() as u64) as usize),
        _ => {}
    }
    talk.receive_all(&bytes);
    talk.flush(generator.below(14) as usize);
    talk.store(records);
}
