//! Document 02, A8: what a derivation needs out of a Nonce's body.

use super::opening::{has_point, Nonce};
use crate::message::Span;
use crate::refusal::Refusal;

const RANDOM: Span = Span { at: 12, len: 16 };
const POINT: Span = Span { at: 28, len: 32 };

#[derive(Clone, Copy, Debug, PartialEq, Eq)]
pub struct NonceFields {
    pub version: u8,
    pub time: u32,
    /// Within the body, as is the point.
    pub random: Span,
    /// Bytes that stand in its place in a Nonce of version 0 or 1 are ignored.
    pub point: Option<Span>,
}

/// 7 for a short body. Nothing else is judged: a link does that.
pub fn nonce_fields(body: &[u8]) -> Result<NonceFields, Refusal> {
    let nonce = Nonce::read(body)?;
    Ok(NonceFields {
        version: nonce.version,
        time: nonce.time,
        random: RANDOM,
        point: has_point(nonce.version).then_some(POINT),
    })
}
