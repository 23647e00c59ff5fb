//! Invokes that the message check reads, whose timeout field is 0, and those
//! that mean the same (document 02, A1): with an extra that has no timeout and
//! with no extra.

use super::message_bodies::Body;
use super::message_reads::{cut_everywhere, header_values, Reads};
use crate::message::values as v;

pub const NUMBERS: [i64; 4] = [1, -1, i64::MIN, i64::MAX];
pub const ACTORS: [Option<i64>; 5] = [None, Some(0), Some(5), Some(-1), Some(i64::MIN)];

/// None is no extra, some none an extra without a timeout.
type Extra = Option<Option<u32>>;

const ZERO: Extra = Some(Some(0));
const EMPTY: Extra = Some(None);

pub fn push(records: &mut Vec<u8>) {
    let mut reads = Reads { records };
    payloads(&mut reads);
    cuts(&mut reads);
    after_the_marker(&mut reads);
    repeated(&mut reads);
    masks(&mut reads);
    other_timeouts(&mut reads);
    other_timeouts_cut(&mut reads);
    number_zero(&mut reads);
}

/// The headers of an invoke up to the marker, in every form and order.
fn forms(actor: Option<i64>, extra: Extra) -> Vec<Body> {
    let empty = Body::default();
    match (actor, extra) {
        (None, None) => vec![empty],
        (Some(actor), None) => vec![empty.actor(actor)],
        (None, Some(timeout)) => vec![empty.flags(timeout)],
        (Some(actor), Some(timeout)) => vec![
            empty.clone().flags(timeout).actor(actor),
            empty.clone().actor(actor).flags(timeout),
            empty.actor_flags(actor, timeout),
        ],
    }
}

/// With an actor and without one.
fn both_forms(extra: Extra) -> Vec<Body> {
    [None, Some(5)]
        .into_iter()
        .flat_map(|actor| forms(actor, extra))
        .collect()
}

/// Everything that means no timeout, with the marker and without it.
fn no_timeouts() -> Vec<Body> {
    let mut bodies = Vec::new();
    for actor in ACTORS {
        for extra in [ZERO, EMPTY, None] {
            for form in forms(actor, extra) {
                bodies.extend([form.clone(), form.marker()]);
            }
        }
    }
    bodies
}

/// Headers behind a query number, of which `turn` takes one after the other.
fn numbered(turn: usize, headers: &Body) -> Body {
    Body::numbered(NUMBERS[turn % NUMBERS.len()]).bytes(&headers.0)
}

/// Payloads of zeros too: behind a mask of 0 they look like a field of 0.
fn payloads(reads: &mut Reads) {
    for (turn, headers) in no_timeouts().iter().enumerate() {
        for n in 0..=9 {
            let body = numbered(turn + n, headers);
            reads.push(v::INVOKE, &body.bytes(&b"a payload"[..n]));
        }
        for n in [4, 8] {
            let body = numbered(turn, headers);
            reads.push(v::INVOKE, &body.bytes(&[0; 8][..n]));
        }
    }
}

fn cuts(reads: &mut Reads) {
    for (turn, headers) in no_timeouts().iter().enumerate() {
        let body = numbered(turn, headers).bytes(b"cut");
        cut_everywhere(reads, v::INVOKE, &body);
    }
}

/// What looks like a header there, whole and its value alone, is payload.
fn after_the_marker(reads: &mut Reads) {
    for (turn, headers) in both_forms(ZERO).iter().enumerate() {
        for value in header_values() {
            let body = numbered(turn, headers).marker();
            reads.push(v::INVOKE, &body.clone().u32(value));
            reads.push(v::INVOKE, &body.header(value).bytes(b"more"));
        }
    }
}

/// A second header behind a field of 0 and behind an extra without one: whole,
/// with a payload, cut after its value, and cut within it, which is payload.
fn repeated(reads: &mut Reads) {
    let seconds = [
        Body::default().flags(None),
        Body::default().flags(Some(0)),
        Body::default().flags(Some(1)),
        Body::default().actor(0),
        Body::default().actor(5),
        Body::default().actor_flags(0, None),
        Body::default().actor_flags(5, Some(0)),
        Body::default().actor_flags(-1, Some(1)),
        Body::default().u32(v::DIAGONAL),
        Body::default().u32(v::DIAGONAL_TARGETS),
    ];
    for first in [both_forms(ZERO), both_forms(EMPTY)].concat() {
        for (turn, second) in seconds.iter().enumerate() {
            let body = numbered(turn, &first);
            let whole = body.clone().bytes(&second.0);
            reads.push(v::INVOKE, &whole);
            reads.push(v::INVOKE, &whole.bytes(b"payload"));
            reads.push(v::INVOKE, &body.clone().bytes(&second.0[..4]));
            reads.push(v::INVOKE, &body.bytes(&second.0[..3]));
        }
    }
}

/// Masks with each other bit, alone and beside the one that is carried, before
/// a field of 0: that it says nothing does not excuse the mask. And the two
/// sound masks. A field that is cut is seen only behind a sound one.
fn masks(reads: &mut Reads) {
    let bits = (0..32).map(|bit| 1_u32 << bit);
    let masks = bits.flat_map(|bit| [bit, bit | v::TIMEOUT_BIT]);
    for (turn, mask) in masks.chain([0, u32::MAX, !v::TIMEOUT_BIT]).enumerate() {
        let starts = [
            Body::default().u32(v::DEST_FLAGS),
            Body::default().u32(v::DEST_ACTOR_FLAGS).i64(5),
        ];
        for start in starts {
            let body = numbered(turn, &start).u32(mask);
            reads.push(v::INVOKE, &body.clone().u32(0));
            reads.push(v::INVOKE, &body.clone().u32(0).bytes(b"zero"));
            reads.push(v::INVOKE, &body.bytes(&[0; 3]));
        }
    }
}

/// Fields of which all bytes but one are 0, and others: only 0 is none.
fn other_timeouts(reads: &mut Reads) {
    let bits = (0..32).map(|bit| 1_u32 << bit);
    let others = [0, 3, 255, 0xff00, 0x00ff_ffff, 0xffff_ff00, u32::MAX];
    for (turn, timeout) in bits.chain(others).enumerate() {
        for headers in both_forms(Some(Some(timeout))) {
            let body = numbered(turn, &headers);
            let payload = &b"payload"[..turn % 8];
            reads.push(v::INVOKE, &body.clone().bytes(payload));
            reads.push(v::INVOKE, &body.marker().bytes(payload));
        }
    }
}

/// Without one to four of their last bytes, with which a field may look like 0.
fn other_timeouts_cut(reads: &mut Reads) {
    let timeouts = [1, 255, 256, 65_536, 1 << 23, 1 << 31, u32::MAX];
    for (turn, timeout) in timeouts.into_iter().enumerate() {
        for headers in both_forms(Some(Some(timeout))) {
            for n in 1..=4 {
                reads.push(v::INVOKE, &numbered(turn, &headers).cut(n));
            }
        }
    }
}

/// 12 comes before all that a field of 0 says or lacks.
fn number_zero(reads: &mut Reads) {
    for headers in both_forms(ZERO) {
        let body = Body::numbered(0).bytes(&headers.0);
        reads.push(v::INVOKE, &body);
        reads.push(v::INVOKE, &body.clone().bytes(b"rest"));
        reads.push(v::INVOKE, &body.clone().cut(1));
        reads.push(v::INVOKE, &body.marker());
    }
}
