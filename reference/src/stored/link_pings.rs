//! Ping and Pong in every order.

use super::link_sending::Sending;
use super::link_talk::{Talk, OPEN, SIDES};
use super::records::{self, other, Draft};
use crate::generator::Generator;
use crate::link::packet::{PING, PONG};
use crate::message::Side;

/// IDs, of which 0 is as good as any.
const IDS: [u64; 2] = [0, 0x8000_0000_0000_0001];

#[derive(Clone, Copy)]
enum Act {
    TheirPing(u64),
    TheirPong(u64),
    OurPing(u64),
    OurPong,
}

const ACTS: [Act; 7] = [
    Act::TheirPing(IDS[0]),
    Act::TheirPing(IDS[1]),
    Act::TheirPong(IDS[0]),
    Act::TheirPong(IDS[1]),
    Act::OurPing(IDS[0]),
    Act::OurPing(IDS[1]),
    Act::OurPong,
];

impl Act {
    fn play(self, talk: &mut Talk) {
        match self {
            Act::TheirPing(id) => talk.receive_forged(PING, &id.to_le_bytes()),
            Act::TheirPong(id) => talk.receive_forged(PONG, &id.to_le_bytes()),
            Act::OurPing(id) => talk.send_in(24, &Sending::ping(id)),
            Act::OurPong => talk.send_in(24, &Sending::pong()),
        }
    }
}

pub fn push(records: &mut Vec<u8>, generator: &mut Generator) {
    for side in SIDES {
        every_order(records, Talk::after(OPEN, side, (true, true)), 3);
        for _ in 0..120 {
            random(records, generator, side);
        }
        answered(records, side);
    }
}

/// Every order of so many acts, as long as the link lives.
fn every_order(records: &mut Vec<u8>, talk: Talk, acts: usize) {
    if acts == 0 || talk.is_closed() {
        return talk.store(records);
    }
    for act in ACTS {
        let mut talk = talk.clone();
        act.play(&mut talk);
        every_order(records, talk, acts - 1);
    }
}

/// Longer runs, with messages between; most end with a Ping or Pong out of
/// turn from the other side.
fn random(records: &mut Vec<u8>, generator: &mut Generator, side: Side) {
    let settings = generator.pick(&[(true, true), (false, false)]);
    let mut talk = Talk::after(OPEN, side, settings);
    for _ in 0..12 {
        if talk.is_closed() {
            break;
        }
        match generator.below(8) {
            0 => talk.receive_forged(0x63ae_da4e, b"message"),
            _ => generator.pick(&ACTS).play(&mut talk),
        }
    }
    talk.store(records);
}

/// Both ways again and again, with all kinds of IDs; a buffer too small does
/// not count as an answer.
fn answered(records: &mut Vec<u8>, side: Side) {
    let mut talk = Talk::after(OPEN, side, (true, true));
    for id in [0, 0, 1, 1 << 32, 1 << 63, u64::MAX, 0x0123_4567_89ab_cdef] {
        let them = other(side);
        talk.pass(them, &Sending::ping(id));
        talk.send_in(23, &Sending::pong());
        talk.send_in(23, &Sending::ping(!id));
        talk.send(&Sending::ping(!id));
        talk.send(&Sending::pong());
        talk.send(&Sending::pong());
        talk.send(&Sending::ping(id));
        talk.pass(them, &Sending::pong());
    }
    let draft = match side {
        Side::Client => Draft::new(records::INVOKE, 1),
        Side::Server => Draft::new(records::PAYLOAD, 1),
    };
    talk.send(&Sending::message(draft, b"still open"));
    talk.store(records);
}
