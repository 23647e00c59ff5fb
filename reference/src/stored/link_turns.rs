//! Calls that a link refuses without being moved by them.

use super::link_sending::{self, Sending};
use super::link_talk::{Talk, OPEN, SETTINGS, SIDES, TIME};
use super::message_reads::header_values;
use super::records::{self, Draft};
use crate::generator::Generator;
use crate::link::packet::PING;
use crate::message::values as v;
use crate::message::Side;

pub fn push(records: &mut Vec<u8>, generator: &mut Generator) {
    for side in SIDES {
        for settings in SETTINGS {
            refused_at_every_stage(records, generator, side, settings);
        }
        rooms(records, side);
        ways_and_orders(records, side);
        header_payloads(records, side);
        long(records, generator, side);
    }
}

/// Every call at every stage that is not the one awaited; then the opening
/// goes on as if nothing had been.
fn refused_at_every_stage(
    records: &mut Vec<u8>,
    generator: &mut Generator,
    side: Side,
    settings: (bool, bool),
) {
    let mut talk = Talk::new(side, settings);
    for packets in 0..=OPEN {
        talk.open_until(packets);
        for sending in Sending::every_kind(TIME) {
            if !talk.could_send(&sending) {
                talk.send_in(generator.below(100) as usize, &sending);
            }
        }
        if talk.must_send() {
            let garbage = generator.bytes(14);
            for bytes in [&garbage[..3], &garbage, &[76, 0, 0, 0], &[]] {
                talk.receive(bytes);
            }
        }
    }
    for sending in Sending::every_kind(TIME) {
        talk.send(&sending);
    }
    talk.store(records);
}

/// Buffers of every size around what is needed, for whatever may be sent.
fn rooms(records: &mut Vec<u8>, side: Side) {
    for packets in 0..=OPEN {
        let talk = Talk::after(packets, side, (true, true));
        for sending in Sending::every_kind(TIME) {
            let mut talk = talk.clone();
            if packets == OPEN && sending.kind == link_sending::PONG {
                talk.receive_forged(PING, b"12345678");
            }
            let Some(size) = talk.size_of(&sending) else {
                continue;
            };
            for room in [0, 4, 12, 15, 16, size - 4, size - 1] {
                if room < size {
                    talk.send_in(room, &sending);
                }
            }
            talk.send_in(size + 5, &sending);
            talk.send(&sending);
            talk.store(records);
        }
    }
}

/// Messages of both ways with one fault or more: 19, 12, 15, 16 in order.
fn ways_and_orders(records: &mut Vec<u8>, side: Side) {
    let request = v::DEST_FLAGS.to_le_bytes();
    let error = v::ERROR.to_le_bytes();
    for settings in [(true, true), (true, false)] {
        let mut talk = Talk::after(OPEN, side, settings);
        for kind in records::INVOKE..=records::ERROR {
            for number in [0, 3] {
                for bytes in [&b"sound"[..], &request, &error] {
                    let draft = Draft::new(kind, number);
                    for room in [0, 60] {
                        talk.send_in(room, &Sending::message(draft, bytes));
                    }
                }
                let draft = Draft::new(kind, number).tl2(true).actor(0);
                talk.send_in(60, &Sending::message(draft, &request));
            }
        }
        talk.send(&Sending::ping(4));
        talk.send_in(0, &Sending::ping(5));
        talk.send_in(0, &Sending::pong());
        talk.send_in(0, &Sending::nonce(TIME));
        talk.send_in(0, &Sending::handshake());
        talk.store(records);
    }
}

/// Payloads that begin with a header of either way, in messages of both.
fn header_payloads(records: &mut Vec<u8>, side: Side) {
    let mut talk = Talk::after(OPEN, side, (true, true));
    for value in header_values() {
        for kind in [records::INVOKE, records::PAYLOAD, records::ERROR] {
            let draft = Draft::new(kind, 1);
            let payload = value.to_le_bytes();
            talk.send_in(60, &Sending::message(draft, &payload));
            talk.send_in(20, &Sending::message(draft, &payload));
            talk.send_in(60, &Sending::message(draft.tl2(true), &payload));
        }
    }
    talk.store(records);
}

/// Packets whose length needs three bytes.
fn long(records: &mut Vec<u8>, generator: &mut Generator, side: Side) {
    let payload = generator.bytes(66_000);
    let invoke = Draft::new(records::INVOKE, 1).tl2(true);
    let result = Draft::new(records::PAYLOAD, 1);
    let mut talk = Talk::after(OPEN, side, (true, true));
    let (of_client, of_server) = match side {
        Side::Client => (&payload[..], &payload[..9000]),
        Side::Server => (&payload[..9000], &payload[..]),
    };
    talk.pass(Side::Client, &Sending::message(invoke, of_client));
    talk.pass(Side::Server, &Sending::message(result, of_server));
    talk.store(records);
}
