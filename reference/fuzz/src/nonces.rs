//! What a derivation needs of a Nonce's body, at every length and with versions
//! on either side of that with a point.

use crate::compare::{same, Compared};
use crate::counts::Counts;
use reference::generator::Generator;
use reference::link::{nonce_fields, NonceFields};
use reference::message::Span;
use reference::refusal::Refusal;
use relay::raw;

const LONGEST: usize = 70;

pub fn case(g: &mut Generator, counts: &mut Counts) -> Compared {
    let mut body = g.bytes(LONGEST);
    let any = g.byte();
    body[5] = g.pick(&[0, 1, 1, 2, 2, 3, 127, 128, 255, any]);
    for length in 0..=LONGEST {
        compare(&body[..length], counts)?;
    }
    Ok(())
}

/// Through the C interface, where all is 0 after a refusal.
pub fn compare(body: &[u8], counts: &mut Counts) -> Compared {
    // SAFETY: the pointer and length are a slice's.
    let ours = unsafe { raw::relay_read_nonce(body.as_ptr(), body.len()) };
    let second = nonce_fields(body);
    let word = |fields: NonceFields| match fields.point {
        Some(_) => "with a point",
        None => "without a point",
    };
    counts.add("Nonce", second.map(word).map_err(|r| r.number()));
    let call = || format!("body {body:02x?}");
    same("a Nonce's fields", call, ours, raw_fields(second))
}

/// A point that a Nonce does not have is no bytes, at its place.
fn raw_fields(answer: Result<NonceFields, Refusal>) -> raw::NonceFields {
    let part = |Span { at, len }| raw::Part { at, len };
    let none = raw::Part { at: 0, len: 0 };
    match answer {
        Ok(fields) => raw::NonceFields {
            refusal: 0,
            version: fields.version,
            time: fields.time,
            random: part(fields.random),
            point: part(fields.point.unwrap_or(Span { at: 28, len: 0 })),
        },
        Err(refusal) => raw::NonceFields {
            refusal: refusal.number(),
            version: 0,
            time: 0,
            random: none,
            point: none,
        },
    }
}
