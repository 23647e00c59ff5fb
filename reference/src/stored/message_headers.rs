//! Headers and their masks, in every order, that the message check reads.

use super::message_bodies::Body;
use super::message_reads::{cut_everywhere, header_values, Reads};
use crate::message::values as v;

pub fn push(reads: &mut Reads) {
    header_orders(reads);
    faint_headers(reads);
    foreign_headers(reads);
    after_the_marker(reads);
    request_masks(reads);
    result_masks(reads);
}

/// Up to three headers of an invoke in every order, with their fields and
/// cut after the last value: a repetition is seen there, before the fields.
fn header_orders(reads: &mut Reads) {
    let mut orders = vec![Body::numbered(9)];
    for _ in 0..3 {
        let longer = |order: &Body| v::REQUEST_HEADERS.map(|value| order.clone().header(value));
        for order in &orders {
            for value in v::REQUEST_HEADERS {
                reads.push(v::INVOKE, &order.clone().u32(value));
            }
        }
        orders = orders.iter().flat_map(longer).collect();
        for order in &orders {
            reads.push(v::INVOKE, order);
            reads.push(v::INVOKE, &order.clone().bytes(b"\x01\x02\x03\x04\x05"));
        }
    }
}

/// Two headers after each other, of which an actor of 0, a timeout of 0 or an
/// extra without a timeout counts as much as any other when it is repeated.
fn faint_headers(reads: &mut Reads) {
    let headers = [
        Body::default().actor(0),
        Body::default().actor(-1),
        Body::default().flags(None),
        Body::default().flags(Some(0)),
        Body::default().flags(Some(60_000)),
        Body::default().actor_flags(0, None),
        Body::default().actor_flags(0, Some(0)),
        Body::default().actor_flags(1, None),
    ];
    for first in &headers {
        for second in &headers {
            let body = Body::numbered(4).bytes(&first.0);
            reads.push(v::INVOKE, &body.clone().bytes(&second.0[..4]));
            reads.push(v::INVOKE, &body.bytes(&second.0).bytes(b"end"));
        }
    }
}

/// Headers of one way are payload on the other; an error is not one after a
/// payload's first bytes; result headers come once.
fn foreign_headers(reads: &mut Reads) {
    for value in header_values() {
        for packet_type in [v::INVOKE, v::RESULT] {
            let starts = [
                Body::numbered(1),
                Body::numbered(1).actor(3),
                Body::numbered(1).header(v::RESULT_HEADER),
                Body::numbered(1).bytes(b"pay_"),
                Body::numbered(1).bytes(b"p"),
            ];
            for start in starts {
                let body = start.header(value);
                cut_everywhere(reads, packet_type, &body.clone().u32(0));
                reads.push(packet_type, &body.clone().u32(0x0101).text(b"abc"));
                reads.push(packet_type, &body.i64(0).u32(0x0101).text(b"abc"));
            }
        }
    }
}

fn after_the_marker(reads: &mut Reads) {
    let starts = [
        Body::numbered(8),
        Body::numbered(8).actor(8),
        Body::numbered(8).flags(None),
        Body::numbered(8).actor_flags(0, Some(8)),
    ];
    for start in starts {
        for value in header_values() {
            let body = start.clone().marker().header(value);
            reads.push(v::INVOKE, &body);
            reads.push(v::INVOKE, &body.clone().header(value));
            reads.push(v::INVOKE, &body.cut(1));
        }
    }
}

/// Each bit alone and beside the one that is carried; cut after the mask too,
/// since a wrong mask is seen before a timeout that is not there.
fn request_masks(reads: &mut Reads) {
    let bits = (0..32).map(|bit| 1_u32 << bit);
    let masks = bits.flat_map(|bit| [bit, bit | v::TIMEOUT_BIT]);
    let others = [0, u32::MAX, !v::TIMEOUT_BIT, v::TIMEOUT_BIT.swap_bytes()];
    for mask in masks.chain(others) {
        let starts = [
            Body::numbered(2).u32(v::DEST_FLAGS),
            Body::numbered(2).u32(v::DEST_ACTOR_FLAGS).i64(6),
            Body::numbered(2).actor(6).u32(v::DEST_FLAGS),
        ];
        for start in starts {
            let body = start.u32(mask);
            reads.push(v::INVOKE, &body);
            reads.push(v::INVOKE, &body.clone().bytes(&[1, 2, 3]));
            reads.push(v::INVOKE, &body.clone().u32(0).bytes(b"after"));
            reads.push(v::INVOKE, &body.u32(v::DIAGONAL).u32(v::DIAGONAL));
        }
    }
}

fn result_masks(reads: &mut Reads) {
    let bits = (0..32).map(|bit| 1_u32 << bit);
    for mask in bits.chain([0, u32::MAX]) {
        let body = Body::numbered(2).u32(v::RESULT_HEADER).u32(mask);
        reads.push(v::RESULT, &body);
        reads.push(v::RESULT, &body.clone().bytes(b"payload"));
        reads.push(v::RESULT, &body.clone().header(v::RESULT_HEADER));
        reads.push(v::RESULT, &body.error(v::ERROR, 1).text(b"fault"));
    }
}
