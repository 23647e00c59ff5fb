//! The bodies that the message check reads.

use super::message_bodies::{valid, Body};
use super::message_cases::push_read;
use super::message_headers as headers;
use super::message_texts as texts;
use crate::generator::Generator;
use crate::message::values as v;
use crate::message::Side;

pub const TYPES: [u32; 6] = [
    v::INVOKE,
    v::CANCEL,
    v::CLIENT_FIN,
    v::RESULT,
    v::OLD_ERROR,
    v::SERVER_FIN,
];

/// Nonce, Handshake, Ping and Pong: packets, but not messages.
const NOT_RPC: [u32; 4] = [0x7acb_87aa, 0x7682_eef5, 0x5730_a2df, 0x8430_eaa7];

/// Header values of both ways.
pub fn header_values() -> Vec<u32> {
    [&v::REQUEST_HEADERS[..], &v::RESULT_HEADERS].concat()
}

pub fn push(records: &mut Vec<u8>, generator: &mut Generator) {
    let mut reads = Reads { records };
    numbers(&mut reads);
    for (packet_type, body) in valid() {
        cut_everywhere(&mut reads, packet_type, &body);
        trailing(&mut reads, packet_type, &body);
        flips(&mut reads, generator, packet_type, &body);
    }
    types(&mut reads, generator);
    headers::push(&mut reads);
    texts::push(&mut reads, generator);
    random_bytes(&mut reads, generator);
    random_fields(&mut reads, generator);
}

pub struct Reads<'a> {
    pub records: &'a mut Vec<u8>,
}

impl Reads<'_> {
    /// At the side that such packets come to.
    pub fn push(&mut self, packet_type: u32, body: &Body) {
        let reader = match packet_type {
            v::INVOKE | v::CANCEL | v::CLIENT_FIN => Side::Server,
            _ => Side::Client,
        };
        push_read(self.records, reader, packet_type, &body.0);
    }

    fn at_both_sides(&mut self, packet_type: u32, body: &Body) {
        for reader in [Side::Client, Side::Server] {
            push_read(self.records, reader, packet_type, &body.0);
        }
    }
}

/// Query number 0 before anything else, and numbers of which only one byte
/// is not 0.
fn numbers(reads: &mut Reads) {
    let bytes = (0..8).map(|place| 1_i64 << (8 * place));
    for number in bytes.chain([0, -1, i64::MIN, i64::MAX]) {
        for packet_type in TYPES {
            let body = Body::numbered(number);
            reads.push(packet_type, &body);
            reads.push(packet_type, &body.clone().cut(1));
            reads.push(packet_type, &body.clone().bytes(&[0]));
            reads.push(packet_type, &body.clone().u32(v::DIAGONAL));
            reads.push(packet_type, &body.clone().header(v::RESULT_HEADER).u32(1));
            reads.push(packet_type, &body.u32(7).text(b"abc"));
        }
    }
}

/// The whole first, then every beginning.
pub fn cut_everywhere(reads: &mut Reads, packet_type: u32, body: &Body) {
    for n in 0..=body.0.len() {
        reads.push(packet_type, &body.clone().cut(n));
    }
}

fn trailing(reads: &mut Reads, packet_type: u32, body: &Body) {
    for n in [1, 2, 3, 4, 8] {
        for byte in [0x00, 0xff] {
            reads.push(packet_type, &body.clone().bytes(&vec![byte; n]));
        }
    }
}

/// One bit wrong, once in every byte.
fn flips(reads: &mut Reads, generator: &mut Generator, packet_type: u32, body: &Body) {
    for place in 0..body.0.len() {
        let mut flipped = body.clone();
        flipped.0[place] ^= 1 << generator.below(8);
        reads.push(packet_type, &flipped);
    }
}

/// Every type of the other way, types that are none, and those one bit away.
fn types(reads: &mut Reads, generator: &mut Generator) {
    let bits = (0..32).map(|bit| 1_u32 << bit);
    let near = bits.flat_map(|bit| TYPES.map(|packet_type| packet_type ^ bit));
    let random = (0..50).map(|_| generator.draw() as u32);
    let unknown = near.chain(random).chain([0, 1, u32::MAX]).chain(NOT_RPC);
    for packet_type in TYPES.into_iter().chain(header_values()).chain(unknown) {
        reads.at_both_sides(packet_type, &Body::default());
        reads.at_both_sides(packet_type, &Body::numbered(1));
    }
}

fn random_bytes(reads: &mut Reads, generator: &mut Generator) {
    for packet_type in TYPES {
        for n in 0..60 {
            reads.push(packet_type, &Body(generator.bytes(n)));
        }
    }
}

/// Fields at random, so that there are headers, masks and texts in places
/// where they belong and where they do not.
fn random_fields(reads: &mut Reads, generator: &mut Generator) {
    let values = header_values();
    for _ in 0..2000 {
        let packet_type = generator.pick(&[v::INVOKE, v::INVOKE, v::RESULT, v::OLD_ERROR]);
        let mut body = Body::numbered(generator.draw() as i64);
        for _ in 0..generator.below(5) {
            body = random_field(generator, &values, body);
        }
        let cut = generator.pick(&[0, 0, 0, 1, 2, 4]);
        reads.push(packet_type, &body.cut(cut));
    }
}

fn random_field(generator: &mut Generator, values: &[u32], body: Body) -> Body {
    let value = generator.pick(values);
    let n = generator.below(9) as usize;
    match generator.below(10) {
        0..=3 => body.header(value),
        4 => body.u32(value),
        5 => body.error(generator.pick(&v::RESULT_HEADERS[1..]), n as i32 - 4),
        6 => body.u32(generator.pick(&[0, v::TIMEOUT_BIT])),
        7 => body.bytes(&generator.bytes(n)),
        _ => body.text(&generator.bytes(n)),
    }
}
