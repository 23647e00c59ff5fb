//! Flushes: at every stage, after packets of every size, with every room.

use super::link_padded::{message, open, profile, words, ANY, ENOUGH};
use super::link_sending::Sending;
use super::link_talk::{receiving, Talk, OPEN, SIDES, TIME};
use super::records::other;
use crate::link::packet::PING;
use crate::link::Settings;
use crate::message::Side;

/// From none to more than a flush ever needs.
const ROOMS: std::ops::RangeInclusive<usize> = 0..=ENOUGH;

const TOO_HIGH: u8 = 3;

pub fn push(records: &mut Vec<u8>) {
    for side in SIDES {
        for padded in [true, false] {
            stages(records, side, padded);
            closed(records, side, padded);
            interleaved(records, side, padded);
        }
        for packets in 0..=5 {
            for size in 8..24 {
                after_packets(records, side, packets, size);
            }
        }
        every_room(records, side);
        after_refused(records, side);
        not_inherited(records, side);
        refused_set_up(records, side);
    }
}

fn profiled(side: Side, padded: bool) -> Talk {
    let theirs = profile(other(side), true, padded);
    Talk::set_up(profile(side, true, padded), theirs)
}

/// At every stage of the opening: twice with one room, whoever's turn it is;
/// then with all rooms.
fn stages(records: &mut Vec<u8>, side: Side, padded: bool) {
    for room in ROOMS {
        let mut talk = profiled(side, padded);
        for packets in 0..=OPEN {
            talk.open_until(packets);
            talk.flush(room);
            talk.flush(room);
        }
        talk.store(records);
    }
    for packets in 0..=OPEN {
        let mut talk = profiled(side, padded);
        talk.open_until(packets);
        for room in ROOMS {
            talk.flush(room);
        }
        talk.open_until(OPEN);
        talk.flush(ENOUGH);
        talk.store(records);
    }
}

/// So many packets of one size, then rooms that do not suffice and one that
/// does, and nothing left to write.
fn after_packets(records: &mut Vec<u8>, side: Side, packets: usize, size: usize) {
    let mut talk = open(side);
    for _ in 0..packets {
        talk.send(&message(side, size));
    }
    for room in ROOMS {
        talk.flush(room);
    }
    talk.send(&message(side, 0));
    talk.flush(ENOUGH);
    talk.flush(0);
    talk.store(records);
}

/// Each room after each size, in one conversation.
fn every_room(records: &mut Vec<u8>, side: Side) {
    let mut talk = open(side);
    for room in ROOMS.chain([16, 40, 1000]) {
        for size in 8..24 {
            talk.send(&message(side, size));
            talk.flush(room);
            if size % 3 == 0 {
                talk.flush(ENOUGH);
            }
        }
    }
    talk.store(records);
}

/// Closed at every stage where a link receives, with words due or not: 20,
/// whatever the room.
fn closed(records: &mut Vec<u8>, side: Side, padded: bool) {
    for packets in receiving(side) {
        for flushed in [false, true] {
            let mut talk = profiled(side, padded);
            talk.open_until(packets);
            if flushed {
                talk.flush(ENOUGH);
            }
            talk.receive(&[15, 0, 0, 0]);
            for room in ROOMS {
                talk.flush(room);
            }
            talk.store(records);
        }
    }
}

/// What is refused writes nothing, and so does not count.
fn after_refused(records: &mut Vec<u8>, side: Side) {
    for size in [8, 12, 13, 16] {
        let mut talk = open(side);
        talk.send(&message(side, size));
        talk.send_in(16 + size - 1, &message(side, size));
        talk.flush(ENOUGH);
        for sending in Sending::every_kind(TIME) {
            if !talk.could_send(&sending) {
                talk.send_in(100, &sending);
                talk.flush(ENOUGH);
            }
        }
        talk.send(&message(side, size));
        talk.send_in(0, &message(side, size));
        for room in ROOMS {
            talk.flush(room);
            talk.send_in(20, &message(side, size));
        }
        talk.store(records);
    }
}

/// What is received does not count, nor do its words and zeros.
fn interleaved(records: &mut Vec<u8>, side: Side, padded: bool) {
    for size in 8..16 {
        let mut talk = profiled(side, padded);
        talk.open_until(OPEN);
        let before = words(if padded { size % 4 } else { 0 });
        for turn in 0..3 {
            let packet = talk.forged(ANY, &vec![0; size + turn]);
            talk.receive(&[&before[..], &packet[..14]].concat());
            talk.flush(3);
            talk.receive(&[&before[..], &packet].concat());
            talk.flush(ENOUGH);
            talk.send(&message(side, size));
            talk.receive_forged(PING, &[turn as u8; 8]);
            talk.send(&Sending::pong());
            talk.receive(&before);
            talk.flush(ENOUGH);
        }
        talk.store(records);
    }
}

/// A link with words due, then new ones: padded, not padded, with nothing
/// said.
fn not_inherited(records: &mut Vec<u8>, side: Side) {
    let due = |records: &mut Vec<u8>| {
        let mut talk = open(side);
        talk.send(&message(side, 9));
        talk.store(records);
    };
    let unsaid = || Talk::new(side, (true, true));
    for new in [profiled(side, true), profiled(side, false), unsaid()] {
        for packets in 0..=OPEN {
            due(records);
            let mut talk = new.clone();
            talk.open_until(packets);
            talk.flush(ENOUGH);
            talk.open_until(OPEN);
            talk.send(&message(side, 9));
            talk.flush(ENOUGH);
            talk.receive(&words(1));
            talk.store(records);
        }
    }
}

/// A set-up that is refused leaves the newest link its profile and its count.
fn refused_set_up(records: &mut Vec<u8>, side: Side) {
    for padded in [true, false] {
        for refused in [true, false] {
            let mut talk = profiled(side, padded);
            let settings = Settings {
                lowest_version: TOO_HIGH,
                ..profile(side, true, refused)
            };
            for packets in 0..=OPEN {
                talk.open_until(packets);
                talk.refused_set_up(settings);
            }
            talk.send(&message(side, 9));
            talk.refused_set_up(settings);
            talk.flush(ENOUGH);
            talk.receive(&words(1));
            talk.store(records);
        }
    }
}
