//! Padded links: what their conversations have in common, and whole ones from
//! the opening on.

use super::link_padded_cuts;
use super::link_padded_flush;
use super::link_padded_mixed;
use super::link_padded_opening;
use super::link_padded_random;
use super::link_padded_sending;
use super::link_padded_words;
use super::link_sending::Sending;
use super::link_talk::{Talk, OPEN, SETTINGS, SIDES};
use super::records::{self, other, Draft};
use crate::link::Settings;
use crate::message::{values, Side};

/// More than a flush ever needs.
pub const ENOUGH: usize = 13;

/// A type that a link passes whatever the body.
pub const ANY: u32 = values::RESULT;

pub fn push(records: &mut Vec<u8>) {
    for side in SIDES {
        for settings in SETTINGS {
            for lowest in 0..=2 {
                for flushers in [&[][..], &[side], &[other(side)], &SIDES] {
                    whole(records, lowest_pair(side, settings, lowest), flushers);
                }
            }
        }
    }
    link_padded_words::push(records);
    link_padded_cuts::push(records);
    link_padded_opening::push(records);
    link_padded_sending::push(records);
    link_padded_flush::push(records);
    link_padded_mixed::push(records);
    link_padded_random::push(records);
}

pub fn profile(side: Side, crc32c_allowed: bool, padded: bool) -> Settings {
    Settings {
        padded,
        ..Settings::new(side, crc32c_allowed)
    }
}

/// Two padded links; which of them allow CRC-32C, ours first.
pub fn talk(side: Side, (ours, theirs): (bool, bool)) -> Talk {
    let theirs = profile(other(side), theirs, true);
    Talk::set_up(profile(side, ours, true), theirs)
}

/// With the first `packets` of the opening exchanged.
pub fn after(packets: usize, side: Side, settings: (bool, bool)) -> Talk {
    let mut talk = talk(side, settings);
    talk.open_until(packets);
    talk
}

pub fn open(side: Side) -> Talk {
    after(OPEN, side, (true, true))
}

pub fn words(count: usize) -> Vec<u8> {
    [4, 0, 0, 0].repeat(count)
}

/// `bytes` lent at the point where `talk` stands.
pub fn store(records: &mut Vec<u8>, talk: &Talk, bytes: &[u8]) {
    let mut talk = talk.clone();
    talk.receive(bytes);
    talk.store(records);
}

/// A message that this side may send, whose body has `size` bytes: 0, or 8 and
/// more. A result's body is as long as that of an invoke without headers.
pub fn message(side: Side, size: usize) -> Sending<'static> {
    static BYTES: [u8; 70_000] = [b'='; 70_000];
    let kind = match (side, size) {
        (Side::Client, 0) => records::CLIENT_FIN,
        (Side::Client, _) => records::INVOKE,
        (Side::Server, 0) => records::SERVER_FIN,
        (Side::Server, _) => records::PAYLOAD,
    };
    Sending::message(Draft::new(kind, 21), &BYTES[..size.saturating_sub(8)])
}

/// The link has this lowest version, the peer another.
fn lowest_pair(side: Side, (ours, theirs): (bool, bool), lowest: u8) -> Talk {
    let with_lowest = |settings, lowest_version| Settings {
        lowest_version,
        ..settings
    };
    Talk::set_up(
        with_lowest(profile(side, ours, true), lowest),
        with_lowest(profile(other(side), theirs, true), 2 - lowest),
    )
}

/// An opening and one of everything after it, both ways; the flushers flush
/// after every packet, whoever sent it. What the other end wrote comes before
/// its next packet.
fn whole(records: &mut Vec<u8>, mut talk: Talk, flushers: &[Side]) {
    let mut before = Vec::new();
    for packets in 1..=OPEN {
        talk.open_until(packets);
        flush(&mut talk, flushers, &mut before);
    }
    converse(&mut talk, flushers, before);
    talk.store(records);
}

/// What comes after the opening.
pub fn converse(talk: &mut Talk, flushers: &[Side], mut before: Vec<u8>) {
    for (sender, sending) in traffic() {
        if sender == talk.side {
            talk.send(&sending);
        } else {
            before.extend(talk.peer_sends(&sending));
            talk.receive(&before);
            before.clear();
        }
        flush(talk, flushers, &mut before);
    }
}

pub fn flush(talk: &mut Talk, flushers: &[Side], before: &mut Vec<u8>) {
    if flushers.contains(&talk.side) {
        talk.flush(ENOUGH);
    }
    if flushers.contains(&other(talk.side)) {
        before.extend(talk.peer_flushes());
    }
}

fn traffic() -> Vec<(Side, Sending<'static>)> {
    let invoke = Draft::new(records::INVOKE, 5).actor(6).timeout(7);
    let error = Draft::new(records::ERROR, -5).code(7);
    let cancel = Draft::new(records::CANCEL, i64::MIN);
    vec![
        (Side::Client, Sending::message(invoke, b"payload")),
        (Side::Server, Sending::ping(8)),
        (Side::Client, Sending::message(invoke.tl2(true), b"by two")),
        (Side::Client, Sending::ping(9)),
        (Side::Server, message(Side::Server, 8)),
        (Side::Server, message(Side::Server, 9)),
        (Side::Server, Sending::pong()),
        (Side::Server, message(Side::Server, 14)),
        (Side::Client, Sending::pong()),
        (Side::Server, Sending::message(error, b"error")),
        (Side::Server, message(Side::Server, 0)),
        (Side::Client, Sending::message(cancel, b"")),
        (Side::Client, message(Side::Client, 0)),
    ]
}
