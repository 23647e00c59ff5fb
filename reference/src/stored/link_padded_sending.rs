//! What padded links send: sizes, rooms and the bytes past the packet.

use super::link_padded::{after, message, open, profile, ENOUGH};
use super::link_sending::Sending;
use super::link_talk::{Talk, OPEN, SETTINGS, SIDES, TIME};
use super::records::{self, other, Draft};
use crate::message::Side;

pub fn push(records: &mut Vec<u8>) {
    for side in SIDES {
        rooms(records, side);
        sizes(records, side);
        every_kind(records, side);
        faults(records, side);
        texts(records, side);
        for settings in SETTINGS {
            two_ways(records, side, settings);
        }
        long(records, side);
    }
}

/// Every room from none to more than is needed; 16 counts the zeros, which an
/// unpadded link does not write.
fn rooms(records: &mut Vec<u8>, side: Side) {
    for (padded, size) in [0, 8, 9, 10, 11]
        .map(|size| (true, size))
        .into_iter()
        .chain([(false, 9)])
    {
        let theirs = profile(other(side), true, padded);
        let mut talk = Talk::set_up(profile(side, true, padded), theirs);
        talk.open_until(OPEN);
        let sending = message(side, size);
        let needed = talk.size_of(&sending).expect("it can be sent");
        for room in 0..=needed + 4 {
            talk.send_in(room, &sending);
        }
        talk.flush(ENOUGH);
        talk.store(records);
    }
}

/// Bodies of every size, and rooms around what they need.
fn sizes(records: &mut Vec<u8>, side: Side) {
    for size in 12..=40_usize {
        let mut talk = open(side);
        for room in 15 + size..=(16 + size).next_multiple_of(4) + 4 {
            talk.send_in(room, &message(side, size));
        }
        talk.flush(ENOUGH);
        talk.store(records);
    }
}

/// Whatever may be sent at each stage, with too little room, just enough and
/// more; between, all that is refused there. A flush shows what was counted.
fn every_kind(records: &mut Vec<u8>, side: Side) {
    for packets in 0..=OPEN {
        let talk = after(packets, side, (true, true));
        for sending in Sending::every_kind(TIME) {
            let mut talk = talk.clone();
            if let Some(size) = talk.size_of(&sending) {
                for room in [0, 4, size - 4, size - 1, size + 3] {
                    talk.send_in(room, &sending);
                }
            } else {
                talk.send_in(100, &sending);
                talk.send_in(0, &sending);
            }
            talk.flush(ENOUGH);
            talk.store(records);
        }
    }
}

/// Messages that are refused before the room is looked at, which has space for
/// the packet but not for its zeros, or for both.
fn faults(records: &mut Vec<u8>, side: Side) {
    let mut talk = open(side);
    for kind in [records::INVOKE, records::PAYLOAD] {
        for number in [0, 3] {
            for payload in [&b"12345"[..], b"\x5e\x03\x52\xe3.", b"\x7d\x87\x27\xb5."] {
                for room in [0, 29, 31, 32] {
                    let draft = Draft::new(kind, number);
                    talk.send_in(room, &Sending::message(draft, payload));
                    talk.flush(ENOUGH);
                }
            }
        }
    }
    talk.store(records);
}

/// Texts around 253 bytes, whose own zeros make the body a multiple of 4; at
/// the other side they are received.
fn texts(records: &mut Vec<u8>, side: Side) {
    let mut talk = open(side);
    for size in 250..=258 {
        let text = vec![b't'; size];
        let error = Sending::message(Draft::new(records::ERROR, 2), &text);
        if side == Side::Server {
            let size = talk.size_of(&error).expect("it can be sent");
            talk.send_in(size - 1, &error);
        }
        talk.pass(Side::Server, &error);
        talk.flush(ENOUGH);
    }
    talk.store(records);
}

/// Messages of many sizes in turn, each way.
fn two_ways(records: &mut Vec<u8>, side: Side, settings: (bool, bool)) {
    let mut talk = after(OPEN, side, settings);
    for turn in 0..24 {
        talk.pass(side, &message(side, 8 + turn * 7 % 19));
        let them = other(side);
        talk.pass(them, &message(them, 8 + turn * 5 % 17));
    }
    talk.flush(ENOUGH);
    talk.store(records);
}

/// Packets of each size modulo 4 whose length needs two bytes, and one that
/// needs three.
fn long(records: &mut Vec<u8>, side: Side) {
    let mut talk = open(side);
    for size in [1001, 1002, 1003, 1004] {
        for room in [16 + size, 16 + size + 3] {
            talk.send_in(room, &message(side, size));
        }
        talk.flush(ENOUGH);
    }
    if side == Side::Client {
        talk.pass(Side::Server, &message(Side::Server, 65_537));
    }
    talk.store(records);
}
