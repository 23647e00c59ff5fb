//! Reading messages: valid ones, mutated ones, headers in any order, and random
//! bytes.

use crate::both::our_side;
use crate::compare::{same, Compared};
use crate::counts::Counts;
use crate::draw;
use reference::generator::Generator;
use reference::link::packet::{HANDSHAKE, PING};
use reference::message::values as v;
use reference::message::{self, Invoke, Message, Outcome, Side, Span};
use relay::Answer;

const TYPES: [u32; 9] = [
    v::INVOKE,
    v::INVOKE,
    v::CANCEL,
    v::CLIENT_FIN,
    v::RESULT,
    v::RESULT,
    v::OLD_ERROR,
    v::SERVER_FIN,
    PING,
];

/// The mask of an extra with a timeout, and a timeout that is none.
const FIELD_OF_0: [u8; 8] = [0, 0, 0x80, 0, 0, 0, 0, 0];

pub fn case(g: &mut Generator, counts: &mut Counts) -> Compared {
    let sender = draw::side(g);
    let mut reader = draw::other(sender);
    let (mut packet_type, mut body) = match g.below(8) {
        0..3 => valid(g, sender),
        3..5 => (v::INVOKE, headers(g)),
        5..7 => (g.pick(&[v::RESULT, v::OLD_ERROR]), answer(g)),
        _ => {
            let length = g.below(60) as usize;
            (g.pick(&TYPES), g.bytes(length))
        }
    };
    if packet_type == v::INVOKE {
        reader = Side::Server;
    }
    if draw::coin(g) {
        draw::mutate(g, &mut body);
    }
    if draw::one_in(g, 20) {
        packet_type = g.pick(&[v::INVOKE, v::OLD_ERROR, PING, HANDSHAKE, 0]);
    }
    if draw::one_in(g, 20) {
        reader = draw::other(reader);
    }
    compare(reader, packet_type, &body, counts)
}

fn valid(g: &mut Generator, sender: Side) -> (u32, Vec<u8>) {
    let message = draw::message(g, sender);
    let message = draw::lent(&message);
    let body = message::body(&message).unwrap_or_default();
    (message.packet_type(), body)
}

/// A number, headers in any order and number, and a payload.
fn headers(g: &mut Generator) -> Vec<u8> {
    let mut body = draw::mostly_valid_number(g).to_le_bytes().to_vec();
    for _ in 0..g.below(4) {
        let often = [v::DEST_FLAGS, v::DEST_ACTOR, v::DEST_ACTOR_FLAGS];
        let value = if draw::one_in(g, 6) {
            draw::header(g)
        } else {
            g.pick(&often)
        };
        body.extend(value.to_le_bytes());
        if matches!(value, v::DEST_ACTOR | v::DEST_ACTOR_FLAGS) {
            body.extend(g.draw().to_le_bytes());
        }
        if matches!(value, v::DEST_FLAGS | v::DEST_ACTOR_FLAGS) {
            let mask: u32 = g.pick(&[0, 1 << 23, 1 << 23, 1 << 23 | 1, 1 << 22, 1 << 24, 1 << 31]);
            body.extend(mask.to_le_bytes());
            if mask & 1 << 23 != 0 {
                body.extend(draw::timeout(g).to_le_bytes());
            }
        }
    }
    body.extend(draw::payload(g));
    body
}

/// A number, perhaps headers, and an error of any form, or a payload.
fn answer(g: &mut Generator) -> Vec<u8> {
    let mut body = draw::mostly_valid_number(g).to_le_bytes().to_vec();
    for _ in 0..g.below(3) {
        let value = g.pick(&v::RESULT_HEADERS);
        body.extend(value.to_le_bytes());
        match value {
            v::RESULT_HEADER => body.extend(g.pick(&[0, 0, 0, 1, 1 << 23, u32::MAX]).to_le_bytes()),
            v::ERROR_NUMBERED => body.extend(g.draw().to_le_bytes()),
            _ => {}
        }
    }
    body.extend((g.draw() as u32).to_le_bytes());
    text_field(g, &mut body);
    body
}

/// A text, in a wrong form now and then.
fn text_field(g: &mut Generator, body: &mut Vec<u8>) {
    let text = draw::text(g);
    let length = text.len() as u32;
    let start = body.len();
    if g.below(8) == 0 || text.len() > 253 {
        body.push(g.pick(&[254, 254, 254, 255]));
        body.extend(&length.to_le_bytes()[..3]);
    } else {
        body.push(length as u8);
    }
    body.extend(text);
    while (body.len() - start) % 4 != 0 {
        body.push(u8::from(draw::one_in(g, 30)));
    }
}

/// Both read the body.
pub fn compare(reader: Side, packet_type: u32, body: &[u8], counts: &mut Counts) -> Compared {
    let call = || format!("read at {reader:?}, type {packet_type:#x}: {body:02x?}");
    let ours = relay::read_message(our_side(reader), packet_type, body);
    let ours = ours.map(|message| spans(message, body));
    let second = message::read(reader, packet_type, body);
    let second = second.map_err(|refusal| refusal.number());
    let outcome = || second.as_ref().map(kind).map_err(|number| *number);
    counts.add("read", outcome());
    if packet_type == v::INVOKE && body.windows(8).any(|part| part == FIELD_OF_0) {
        counts.add("field of 0", outcome());
    }
    same("a read", call, ours.map_err(|r| r.number()), second)
}

/// Our message, its payload or text by its place in the body.
fn spans(message: relay::Message, body: &[u8]) -> Message<Span> {
    let span = |part: &[u8]| Span {
        at: part.as_ptr() as usize - body.as_ptr() as usize,
        len: part.len(),
    };
    match message {
        relay::Message::Invoke(invoke) => Message::Invoke(Invoke {
            number: invoke.number,
            actor: invoke.actor,
            timeout: invoke.timeout,
            tl2: invoke.tl2,
            payload: span(invoke.payload),
        }),
        relay::Message::Cancel { number } => Message::Cancel(number),
        relay::Message::ClientFin => Message::ClientFin,
        relay::Message::ServerFin => Message::ServerFin,
        relay::Message::Result { number, answer } => Message::Result(
            number,
            match answer {
                Answer::Payload(payload) => Outcome::Payload(span(payload)),
                Answer::Error { code, text } => Outcome::Error(code, span(text)),
            },
        ),
    }
}

pub fn kind<P>(message: &Message<P>) -> &'static str {
    match message {
        Message::Invoke(_) => "invoke",
        Message::Cancel(_) => "cancel",
        Message::ClientFin => "client fin",
        Message::ServerFin => "server fin",
        Message::Result(_, Outcome::Payload(_)) => "result",
        Message::Result(_, Outcome::Error(..)) => "error",
    }
}
