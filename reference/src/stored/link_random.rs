//! Conversations at random: mostly sound traffic, then a fault.

use super::link_sending::Sending;
use super::link_talk::{Talk, OPEN, SETTINGS, SIDES};
use super::records::{self, other, Draft};
use crate::generator::Generator;
use crate::message::Side;

pub fn push(records: &mut Vec<u8>, generator: &mut Generator) {
    for _ in 0..220 {
        traffic(records, generator);
    }
    for _ in 0..120 {
        garbage(records, generator);
    }
}

fn traffic(records: &mut Vec<u8>, generator: &mut Generator) {
    let side = generator.pick(&SIDES);
    let settings = generator.pick(&SETTINGS);
    let mut talk = Talk::after(OPEN, side, settings);
    let steps = 4 + generator.below(8);
    for _ in 0..steps {
        let n = generator.below(24) as usize;
        let bytes = generator.bytes(n);
        if generator.below(2) == 0 {
            let sending = draw(generator, side, &bytes);
            talk.send(&sending);
        } else {
            let sending = draw(generator, other(side), &bytes);
            if let Ok(packet) = talk.peer_tries(&sending) {
                arrive(generator, &mut talk, &packet);
            }
        }
    }
    let mut last = talk.next_packet();
    damage(generator, &mut last);
    talk.receive(&last);
    talk.store(records);
}

/// Mostly messages of the sender's way; Pings, and Pongs that may not be owed.
pub fn draw<'a>(generator: &mut Generator, sender: Side, bytes: &'a [u8]) -> Sending<'a> {
    let kind = match (sender, generator.below(10)) {
        (_, 0) => return Sending::ping(generator.draw()),
        (_, 1 | 2) => return Sending::pong(),
        (Side::Client, 3) => records::CANCEL,
        (Side::Client, 4) => records::CLIENT_FIN,
        (Side::Client, _) => records::INVOKE,
        (Side::Server, 3) => records::SERVER_FIN,
        (Side::Server, 4 | 5) => records::ERROR,
        (Side::Server, _) => records::PAYLOAD,
    };
    let mut draft = Draft::new(kind, generator.draw() as i64);
    if generator.below(2) == 0 {
        draft = draft.actor(generator.draw() as i64);
    }
    if generator.below(2) == 0 {
        draft = draft.timeout(generator.draw() as u32);
    }
    let draft = draft.tl2(generator.below(3) == 0);
    Sending::message(draft.code(generator.draw() as i32), bytes)
}

/// In one piece, or in two, or with bytes behind.
fn arrive(generator: &mut Generator, talk: &mut Talk, packet: &[u8]) {
    match generator.below(4) {
        0 => {
            let n = generator.below(packet.len() as u64) as usize;
            talk.receive(&packet[..n]);
            talk.receive(packet);
        }
        1 => {
            let behind = generator.bytes(3);
            talk.receive(&[packet, &behind].concat());
        }
        _ => talk.receive(packet),
    }
}

/// Nothing, a changed byte, or two places swapped.
fn damage(generator: &mut Generator, packet: &mut [u8]) {
    let len = packet.len() as u64;
    let (one, other) = (generator.below(len), generator.below(len));
    match generator.below(4) {
        0 => {}
        1 => packet.swap(one as usize, other as usize),
        _ => packet[one as usize] = generator.byte(),
    }
}

/// Bytes of no packet at any stage, with a length that may be believed.
fn garbage(records: &mut Vec<u8>, generator: &mut Generator) {
    let side = generator.pick(&SIDES);
    let packets = generator.below(OPEN as u64 + 1) as usize;
    let mut talk = Talk::after(packets, side, generator.pick(&SETTINGS));
    let n = generator.below(40) as usize;
    let mut bytes = generator.bytes(n);
    if n >= 4 && generator.below(3) > 0 {
        bytes[1..4].fill(0);
    }
    if n >= 8 && generator.below(2) > 0 {
        bytes[4..8].copy_from_slice(&talk.number().to_le_bytes());
    }
    talk.receive(&bytes);
    talk.store(records);
}
