//! Openings that succeed, clocks, and packets that come in pieces.

use super::link_sending::Sending;
use super::link_talk::{at_each_receive, Talk, OPEN, SETTINGS, SIDES, TIME};
use super::records::{self, Draft};
use crate::generator::Generator;
use crate::link::nonce_body;
use crate::link::packet::{NONCE, PONG};
use crate::message::Side;

pub fn push(records: &mut Vec<u8>, generator: &mut Generator) {
    for side in SIDES {
        for settings in SETTINGS {
            whole(records, Talk::new(side, settings));
        }
        clocks(records, side);
    }
    for settings in [(false, false), (true, true)] {
        for talk in at_each_receive(settings) {
            cuts(records, talk);
        }
        for side in SIDES {
            joined(records, generator, Talk::after(OPEN, side, settings));
        }
    }
}

/// An opening and one of everything after it, both ways.
pub fn whole(records: &mut Vec<u8>, mut talk: Talk) {
    talk.open_until(OPEN);
    let invoke = Draft::new(records::INVOKE, 5).actor(6).timeout(7);
    talk.pass(Side::Client, &Sending::message(invoke, b"payload"));
    talk.pass(Side::Client, &Sending::message(invoke.tl2(true), b""));
    talk.pass(Side::Client, &Sending::ping(8));
    talk.pass(Side::Server, &Sending::ping(8));
    talk.pass(Side::Server, &Sending::pong());
    talk.pass(Side::Client, &Sending::pong());
    for draft in [
        Draft::new(records::PAYLOAD, 5),
        Draft::new(records::ERROR, -5).code(7),
        Draft::new(records::SERVER_FIN, 0),
    ] {
        talk.pass(Side::Server, &Sending::message(draft, b"answer"));
    }
    for draft in [
        Draft::new(records::CANCEL, i64::MIN),
        Draft::new(records::CLIENT_FIN, 0),
    ] {
        talk.pass(Side::Client, &Sending::message(draft, b""));
    }
    talk.store(records);
}

/// Their time and ours: around 30 seconds, and where 32 bits end. Times are
/// whole numbers, so 5 is not shortly after 4,294,967,295.
fn clocks(records: &mut Vec<u8>, side: Side) {
    let top = u32::MAX;
    let middle = 1 << 31;
    let near = [0, 1, 29, 30, 31, 32, 1000];
    let mut times = vec![(top, 0), (0, top), (5, top - 5), (top - 5, 5), (top, 29)];
    for ours in [TIME, 31, middle, middle - 1, top - 31, top] {
        for far in near {
            times.push((ours.saturating_add(far), ours));
            times.push((ours.saturating_sub(far), ours));
        }
        times.push((ours ^ middle, ours));
        times.push((ours.wrapping_add(middle + 30), ours));
    }
    for (theirs, ours) in times {
        let packets = usize::from(side == Side::Client);
        let mut talk = Talk::after(packets, side, (true, true));
        talk.time = ours;
        talk.receive_forged(NONCE, &nonce_body(2, theirs, [4; 16]));
        if !talk.is_closed() {
            talk.open_forged(packets + 1, true);
        }
        talk.store(records);
    }
}

/// Every beginning of the next packet, then all of it with more behind, and
/// the conversation to its end.
fn cuts(records: &mut Vec<u8>, mut talk: Talk) {
    let packet = talk.next_packet();
    for n in 0..packet.len() {
        talk.receive(&packet[..n]);
    }
    talk.receive(&[&packet[..], &packet[..7]].concat());
    talk.store(records);
}

/// Several packets in the lent bytes: each call takes the first.
fn joined(records: &mut Vec<u8>, generator: &mut Generator, mut talk: Talk) {
    let mut lent = Vec::new();
    let mut starts = Vec::new();
    talk.send(&Sending::ping(3));
    for turn in 0..6 {
        starts.push(lent.len());
        let packet = match turn {
            2 => talk.peer_sends(&Sending::pong()),
            4 => talk.peer_sends(&Sending::ping(generator.draw())),
            _ => talk.next_packet(),
        };
        lent.extend(packet);
    }
    for start in starts {
        talk.receive(&lent[start..]);
    }
    talk.send(&Sending::pong());
    talk.receive_forged(PONG, &[3, 0, 0, 0, 0, 0, 0, 0]);
    talk.store(records);
}
