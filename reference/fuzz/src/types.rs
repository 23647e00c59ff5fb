//! Sends of packet types that no message has, or that are never written. The
//! second program has no such send: document 01 gives them the refusals of a
//! message that does not go this way.

use crate::compare::{same, Compared};
use crate::counts::Counts;
use crate::draw;
use crate::pairs;
use crate::sends::{random_outgoing, raw_send};
use reference::generator::Generator;
use reference::link::Outgoing;
use reference::message::{values, Message, Side};
use relay::packet_type as t;
use relay::raw;

const KNOWN: [u32; 9] = [
    t::NONCE,
    t::HANDSHAKE,
    t::PING,
    t::PONG,
    t::INVOKE,
    t::CANCEL,
    t::CLIENT_FIN,
    t::RESULT,
    t::SERVER_FIN,
];

pub fn case(g: &mut Generator, counts: &mut Counts) -> Compared {
    let set_ups = pairs::meeting(g);
    let stage = g.below(5) as usize;
    let mut end = pairs::opened(set_ups, stage, counts)?[g.below(2) as usize].clone();
    if draw::one_in(g, 4) {
        end.receive(&[0; 4], 0, counts)?;
    }
    let wrong_way = Outgoing::Message(match end.side {
        Side::Client => Message::ServerFin,
        Side::Server => Message::ClientFin,
    });
    let known = g.pick(&KNOWN) ^ 1 << g.below(32);
    let random = g.draw() as u32;
    let kind = g.pick(&[values::OLD_ERROR, values::OLD_ERROR, known, random, 0]);
    if KNOWN.contains(&kind) {
        return Ok(());
    }
    let room = g.pick(&[0, 16, 100, 700]);
    let outgoing = raw::Outgoing {
        kind,
        ..random_outgoing(g)
    };
    let payload = draw::payload(g);
    let mut ours = vec![0x5a; room];
    let sent = raw_send(end.ours.raw(), &mut ours, &payload, outgoing, 0);
    let refusal = end.second.send(&wrong_way, &mut vec![0; room]);
    let refused = raw::Sent {
        refusal: refusal.expect_err("the wrong way").number(),
        size: 0,
    };
    let call = || format!("send of type {kind:#x}");
    counts.add("send", Err(sent.refusal));
    same("a send of an unknown type", call, sent, refused)?;
    same("its buffer", call, ours, vec![0x5a; room])?;
    end.same_state(call)
}
