//! A padded link whose peer is not padded, and the other way round. Nothing on
//! the wire tells them: they part where padding first makes a difference.

use super::link_padded::{message, profile, ENOUGH};
use super::link_sending::Sending;
use super::link_talk::{Talk, OPEN, SETTINGS, SIDES};
use super::records::other;
use crate::message::Side;

pub fn push(records: &mut Vec<u8>) {
    for side in SIDES {
        for padded in [true, false] {
            for settings in SETTINGS {
                no_difference(records, mixed(side, settings, padded));
            }
            for size in 8..20 {
                stream(records, mixed(side, (true, true), padded), size);
            }
            for packets in 1..=OPEN {
                flushed(records, mixed(side, (true, true), padded), packets);
            }
        }
    }
}

/// Whether ours is padded; the peer is the opposite.
fn mixed(side: Side, (ours, theirs): (bool, bool), padded: bool) -> Talk {
    let theirs = profile(other(side), theirs, !padded);
    Talk::set_up(profile(side, ours, padded), theirs)
}

/// Packets that need no zeros, and no flush of the peer's: all goes well.
fn no_difference(records: &mut Vec<u8>, mut talk: Talk) {
    talk.open_until(OPEN);
    let (us, them) = (talk.side, other(talk.side));
    for size in [8, 12, 0, 20] {
        talk.pass(us, &message(us, size));
        talk.pass(them, &message(them, size));
    }
    talk.pass(them, &Sending::ping(1));
    talk.pass(us, &Sending::pong());
    talk.flush(ENOUGH);
    talk.store(records);
}

/// Three packets of the peer's in one piece, and in two.
fn stream(records: &mut Vec<u8>, mut talk: Talk, size: usize) {
    talk.open_until(OPEN);
    let (us, them) = (talk.side, other(talk.side));
    let mut bytes = Vec::new();
    for size in [8, size, size + 1] {
        bytes.extend(talk.peer_sends(&message(them, size)));
    }
    for cut in [bytes.len(), 24 + 16 + size, 24 + 16 + size + 2] {
        let mut talk = talk.clone();
        let left = talk.receive_all(&bytes[..cut]).len();
        talk.receive_all(&bytes[cut - left..]);
        talk.send(&message(us, size));
        talk.flush(ENOUGH);
        talk.store(records);
    }
}

/// The peer flushes after so many packets of the opening and after its first
/// message; only a padded link knows what to do with the words.
fn flushed(records: &mut Vec<u8>, mut talk: Talk, packets: usize) {
    talk.open_until(packets);
    let mut bytes = talk.peer_flushes();
    talk.open_until(OPEN);
    let them = other(talk.side);
    for size in [8, 13] {
        bytes.extend(talk.peer_sends(&message(them, size)));
        bytes.extend(talk.peer_flushes());
    }
    talk.receive_all(&bytes);
    talk.store(records);
}
