//! Random parts of messages and packets, with a liking for the edges.

use reference::generator::Generator;
use reference::link::{Cipher, Outgoing};
use reference::message::values as v;
use reference::message::{Invoke, Message, Outcome, Side};

/// One in so many.
pub fn one_in(g: &mut Generator, many: u64) -> bool {
    g.below(many) == 0
}

pub fn coin(g: &mut Generator) -> bool {
    one_in(g, 2)
}

pub fn side(g: &mut Generator) -> Side {
    g.pick(&[Side::Client, Side::Server])
}

pub fn other(side: Side) -> Side {
    match side {
        Side::Client => Side::Server,
        Side::Server => Side::Client,
    }
}

/// From 0 to `last`.
pub fn up_to(g: &mut Generator, last: usize) -> usize {
    g.below(last as u64 + 1) as usize
}

/// A room on either side of what is needed; zeros may be its last three bytes.
pub fn near(g: &mut Generator, needed: usize) -> usize {
    needed + 1 - up_to(g, 5)
}

/// All ten values that have a meaning at the front of a payload.
pub fn header(g: &mut Generator) -> u32 {
    if coin(g) {
        g.pick(&v::REQUEST_HEADERS)
    } else {
        g.pick(&v::RESULT_HEADERS)
    }
}

pub fn query_number(g: &mut Generator) -> i64 {
    let random = g.draw() as i64;
    g.pick(&[0, 1, -1, 77, i64::MAX, i64::MIN, random, random])
}

/// 0 only now and then, so that what comes after it is reached.
pub fn mostly_valid_number(g: &mut Generator) -> i64 {
    if one_in(g, 12) {
        0
    } else {
        g.draw() as i64 | 1
    }
}

pub fn payload(g: &mut Generator) -> Vec<u8> {
    let longest = g.pick(&[1, 5, 9, 40, 300]);
    let length = g.below(longest) as usize;
    let mut payload = g.bytes(length);
    if one_in(g, 6) {
        let value = header(g).to_le_bytes();
        let length = payload.len().min(4);
        payload[..length].copy_from_slice(&value[..length]);
    }
    payload
}

/// Texts on either side of the longest short one, and of each padding.
pub fn text(g: &mut Generator) -> Vec<u8> {
    let random = g.below(600);
    let length = g.pick(&[0, 1, 2, 3, 4, 5, 251, 252, 253, 254, 255, 256, 257, random]);
    g.bytes(length as usize)
}

/// A message whose payload or text is drawn too.
pub fn message(g: &mut Generator, sender: Side) -> Message<Vec<u8>> {
    let number = mostly_valid_number(g);
    match (sender, g.below(8)) {
        (Side::Client, 0) => Message::Cancel(number),
        (Side::Client, 1) => Message::ClientFin,
        (Side::Client, _) => Message::Invoke(Invoke {
            number,
            actor: coin(g).then(|| query_number(g)),
            timeout: coin(g).then(|| timeout(g)),
            tl2: one_in(g, 3),
            payload: payload(g),
        }),
        (Side::Server, 0) => Message::ServerFin,
        (Side::Server, 1..4) => Message::Result(number, Outcome::Error(g.draw() as i32, text(g))),
        (Side::Server, _) => Message::Result(number, Outcome::Payload(payload(g))),
    }
}

/// Often 0, which is none, and what is 0 in some of its bytes.
pub fn timeout(g: &mut Generator) -> u32 {
    match g.below(12) {
        0..4 => 0,
        4 => 1,
        5..9 => 1 << (8 * g.below(4)),
        9 => u32::MAX,
        _ => g.draw() as u32,
    }
}

/// The same message with its payload or text lent.
pub fn lent(message: &Message<Vec<u8>>) -> Message<&[u8]> {
    match message {
        Message::Invoke(invoke) => Message::Invoke(Invoke {
            number: invoke.number,
            actor: invoke.actor,
            timeout: invoke.timeout,
            tl2: invoke.tl2,
            payload: &invoke.payload,
        }),
        Message::Cancel(number) => Message::Cancel(*number),
        Message::ClientFin => Message::ClientFin,
        Message::ServerFin => Message::ServerFin,
        Message::Result(number, Outcome::Payload(payload)) => {
            Message::Result(*number, Outcome::Payload(payload))
        }
        Message::Result(number, Outcome::Error(code, text)) => {
            Message::Result(*number, Outcome::Error(*code, text))
        }
    }
}

/// What is to be sent, of any kind; a message mostly goes the sender's way.
pub fn outgoing<'a>(g: &mut Generator, time: u32, message: &'a Message<Vec<u8>>) -> Outgoing<'a> {
    match g.below(20) {
        0 => nonce(g, time),
        1 => handshake(g),
        2..5 => Outgoing::Ping(g.draw()),
        5..8 => Outgoing::Pong,
        _ => Outgoing::Message(lent(message)),
    }
}

/// With zeros for a point now and then.
pub fn nonce<'a>(g: &mut Generator, time: u32) -> Outgoing<'a> {
    let point = if one_in(g, 4) { [0; 32] } else { array(g) };
    Outgoing::Nonce(time, array(g), point)
}

pub fn cipher(g: &mut Generator) -> Cipher {
    g.pick(&[Cipher::ClearOnly, Cipher::CipherOnly, Cipher::Either])
}

pub fn handshake<'a>(g: &mut Generator) -> Outgoing<'a> {
    Outgoing::Handshake(array(g), array(g))
}

pub fn array<const N: usize>(g: &mut Generator) -> [u8; N] {
    std::array::from_fn(|_| g.byte())
}

/// Changes a byte, cuts, lengthens or repeats a part, at random places.
pub fn mutate(g: &mut Generator, bytes: &mut Vec<u8>) {
    for _ in 0..=g.below(3) {
        let at = g.below(bytes.len() as u64 + 1) as usize;
        match g.below(7) {
            0 => bytes.truncate(at),
            1 => {
                let longest = g.pick(&[2, 5, 9]);
                let more = g.below(longest) as usize;
                bytes.extend(g.bytes(more));
            }
            2 => {
                let value = header(g).to_le_bytes();
                bytes.splice(at..at, value);
            }
            3 => {
                let part = bytes[at..].to_vec();
                bytes.extend(part);
            }
            _ if at < bytes.len() => bytes[at] = g.pick(&[0, 1, 127, 128, 253, 254, 255]),
            _ => bytes.push(0),
        }
    }
}
