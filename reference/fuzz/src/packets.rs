//! Packets made by hand, with the next number and the right checksum: what a
//! hostile or merely different peer may send.

use crate::both::End;
use crate::draw;
use crate::padding;
use reference::checksum::{CRC32, CRC32C};
use reference::generator::Generator;
use reference::link::packet::{self, HANDSHAKE, NONCE, PING, PONG};
use reference::link::{handshake_body, nonce_body, Cipher, State};
use reference::message;

/// On either side of each line; 4 is a word's value.
const LENGTHS: [u32; 10] = [
    0,
    4,
    15,
    16,
    17,
    1023,
    1024,
    0xff_ffff,
    0x100_0000,
    u32::MAX,
];

/// A packet for `to`, mostly of a type that may come now, with what stands
/// around it on padded links.
pub fn crafted(g: &mut Generator, to: &End, time: u32) -> Vec<u8> {
    let packet = alone(g, to, time);
    padding::around(g, to, packet)
}

fn alone(g: &mut Generator, to: &End, time: u32) -> Vec<u8> {
    let state = to.second.state();
    let packet_type = match (g.below(12), state.stage) {
        (0, _) => {
            let random = g.draw() as u32;
            g.pick(&[NONCE, HANDSHAKE, PING, PONG, random])
        }
        (_, 0 | 1) => NONCE,
        (_, 2 | 3) => HANDSHAKE,
        (1..4, _) => PING,
        (4..7, _) => PONG,
        _ => return with_message(g, to),
    };
    let body = match packet_type {
        NONCE => nonce(g, state, time),
        HANDSHAKE => handshake(g),
        _ => ping(g, state),
    };
    let mut packet = to.expected_packet(packet_type, &body);
    if draw::one_in(g, 8) {
        spoil(g, to, &mut packet);
    }
    packet
}

fn with_message(g: &mut Generator, to: &End) -> Vec<u8> {
    let sender = if draw::one_in(g, 8) {
        to.side
    } else {
        draw::other(to.side)
    };
    let message = draw::message(g, sender);
    let message = draw::lent(&message);
    let mut body = message::body(&message).unwrap_or_default();
    if draw::coin(g) {
        draw::mutate(g, &mut body);
    }
    to.expected_packet(message.packet_type(), &body)
}

/// Versions, encryptions, clocks and lengths on either side of each line; the
/// point is not judged.
fn nonce(g: &mut Generator, to: State, time: u32) -> Vec<u8> {
    let version = g.pick(&[0, 0, 1, 1, 2, 2, 2, 3, 255]);
    let far = g.pick(&[0, 0, 1, -1, 29, 30, -30, 31, -31, i32::MAX, i32::MIN]);
    let theirs = time.wrapping_add(far as u32);
    let mut body = nonce_body(version, theirs, draw::array(g));
    let [same, others @ ..] = key_ids(g, to.key_id);
    let other = g.pick(&others);
    body[..4].copy_from_slice(&g.pick(&[same, other]));
    body[4] = encryption(g, to);
    if draw::one_in(g, 4) {
        body[6..8].copy_from_slice(&draw::array::<2>(g));
    }
    if draw::coin(g) {
        body[28..].copy_from_slice(&draw::array::<32>(g));
    }
    let length = g.pick(&[60, 60, 60, 60, 59, 28, 27, 5, 0, 61, 100, 1007, 1008]);
    body.resize(length, 9);
    body
}

/// The same, zeros, one that differs in a bit, and any.
pub fn key_ids(g: &mut Generator, same: [u8; 4]) -> [[u8; 4]; 4] {
    let mut near = same;
    near[g.below(4) as usize] ^= 1 << g.below(8);
    [same, [0; 4], near, draw::array(g)]
}

/// Mostly one that the link takes; a server takes nearly all of them.
fn encryption(g: &mut Generator, to: State) -> u8 {
    let any = g.byte();
    let strange = g.pick(&[0, 1, 2, 3, 4, 127, 128, 129, 254, 255, any]);
    let taken = match to.settings.cipher {
        Cipher::ClearOnly => 0,
        Cipher::CipherOnly => 1,
        Cipher::Either => g.pick(&[0, 1]),
    };
    g.pick(&[taken, taken, strange])
}

fn handshake(g: &mut Generator) -> Vec<u8> {
    let mut body = handshake_body(draw::coin(g), draw::array(g), draw::array(g));
    if draw::one_in(g, 3) {
        body[..4].copy_from_slice(&draw::array::<4>(g));
    }
    let length = g.pick(&[28, 28, 28, 28, 27, 3, 0, 29, 100, 1007, 1008]);
    body.resize(length, 9);
    body
}

/// Of a Ping or Pong; the ID is mostly the one that is awaited.
fn ping(g: &mut Generator, state: State) -> Vec<u8> {
    let random = g.draw();
    let awaited = state.awaited.unwrap_or(random);
    let id = g.pick(&[
        awaited,
        awaited,
        awaited,
        awaited,
        awaited ^ 1 << 63,
        random,
    ]);
    let mut body = id.to_le_bytes().to_vec();
    let length = g.pick(&[8, 8, 8, 8, 8, 8, 8, 7, 9, 0, 12]);
    body.resize(length, 0);
    body
}

/// In place of a packet that was sent: half of them are spoilt, and what stands
/// around each is drawn anew.
pub fn instead(g: &mut Generator, to: &End, mut packet: Vec<u8>) -> Vec<u8> {
    let length = u32::from_le_bytes([packet[0], packet[1], packet[2], packet[3]]);
    packet.truncate(length as usize);
    if draw::coin(g) {
        spoil(g, to, &mut packet);
    }
    padding::around(g, to, packet)
}

/// A wrong length, number, type or checksum, the rest left as it was, or made
/// right again.
fn spoil(g: &mut Generator, to: &End, packet: &mut Vec<u8>) {
    let (number, checksum) = to.second.expected();
    let packet_type = u32::from_le_bytes([packet[8], packet[9], packet[10], packet[11]]);
    let body = packet[12..packet.len() - 4].to_vec();
    match g.below(6) {
        0 => {
            let random = g.draw() as u32;
            let line = g.pick(&LENGTHS);
            let wrong = if draw::one_in(g, 10) { random } else { line };
            packet[..4].copy_from_slice(&wrong.to_le_bytes());
        }
        1 => {
            let wrong = number.wrapping_add(g.pick(&[1, u32::MAX, 1 << 31, 2]));
            *packet = packet::whole(wrong, packet_type, &body, checksum);
        }
        2 => {
            let other = if checksum == CRC32 { CRC32C } else { CRC32 };
            *packet = packet::whole(number, packet_type, &body, other);
        }
        3 => {
            let at = packet.len() - 1 - g.below(4) as usize;
            packet[at] ^= 1 << g.below(8);
        }
        4 => {
            let at = g.below(packet.len() as u64) as usize;
            packet[at] ^= 1 << g.below(8);
        }
        _ => draw::mutate(g, packet),
    }
}
