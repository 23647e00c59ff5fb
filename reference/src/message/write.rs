//! Writing a body. It is made whole first and copied only if it fits, so a
//! refused message leaves the lent buffer as it was.

use super::text;
use super::values as v;
use super::{unless_zero, Invoke, Message, Outcome};
use crate::refusal::Refusal;

/// What a packet has besides its body, and the most it may have with it.
const AROUND_BODY: usize = 16;
const LONGEST_PACKET: usize = 16_777_215;

/// Writes the body of `message` at the front of `buffer` and hands back its
/// size. In order: 12, 15, 2, 16.
pub fn write(message: &Message<&[u8]>, buffer: &mut [u8]) -> Result<usize, Refusal> {
    let body = body(message)?;
    buffer
        .get_mut(..body.len())
        .ok_or(Refusal::BufferTooSmall)?
        .copy_from_slice(&body);
    Ok(body.len())
}

/// The body of `message`, however long a buffer it needs.
pub fn body(message: &Message<&[u8]>) -> Result<Vec<u8>, Refusal> {
    let body = match message {
        Message::Invoke(invoke) => invoke_body(invoke),
        Message::Cancel(number) => numbered(*number),
        Message::ClientFin | Message::ServerFin => Ok(Vec::new()),
        Message::Result(number, outcome) => result_body(*number, outcome),
    }?;
    if body.len() + AROUND_BODY > LONGEST_PACKET {
        return Err(Refusal::LengthTooLong);
    }
    Ok(body)
}

/// A body so far: the query number that all but the fins begin with.
fn numbered(number: i64) -> Result<Vec<u8>, Refusal> {
    if number == 0 {
        return Err(Refusal::QueryNumberZero);
    }
    Ok(number.to_le_bytes().to_vec())
}

fn invoke_body(invoke: &Invoke<&[u8]>) -> Result<Vec<u8>, Refusal> {
    let mut body = numbered(invoke.number)?;
    // Publishers drop a request at once if its field is 0, so none is sent.
    match (invoke.actor, invoke.timeout.and_then(unless_zero)) {
        (None, None) => {}
        (Some(actor), None) => {
            body.extend(v::DEST_ACTOR.to_le_bytes());
            body.extend(actor.to_le_bytes());
        }
        (None, Some(timeout)) => {
            body.extend(v::DEST_FLAGS.to_le_bytes());
            push_extra(&mut body, timeout);
        }
        (Some(actor), Some(timeout)) => {
            body.extend(v::DEST_ACTOR_FLAGS.to_le_bytes());
            body.extend(actor.to_le_bytes());
            push_extra(&mut body, timeout);
        }
    }
    if invoke.tl2 {
        body.extend(v::TL2_MARKER.to_le_bytes());
    } else {
        not_as_header(invoke.payload, &v::REQUEST_HEADERS)?;
    }
    body.extend(invoke.payload);
    Ok(body)
}

fn push_extra(body: &mut Vec<u8>, timeout: u32) {
    body.extend(v::TIMEOUT_BIT.to_le_bytes());
    body.extend(timeout.to_le_bytes());
}

fn result_body(number: i64, outcome: &Outcome<&[u8]>) -> Result<Vec<u8>, Refusal> {
    let mut body = numbered(number)?;
    match outcome {
        Outcome::Payload(payload) => {
            not_as_header(payload, &v::RESULT_HEADERS)?;
            body.extend(*payload);
        }
        Outcome::Error(code, text) => {
            body.extend(v::ERROR.to_le_bytes());
            body.extend(code.to_le_bytes());
            text::push(&mut body, text);
        }
    }
    Ok(body)
}

/// 15 if the reader would take the payload's front for a header.
fn not_as_header(payload: &[u8], headers: &[u32]) -> Result<(), Refusal> {
    match payload.first_chunk() {
        Some(&front) if headers.contains(&u32::from_le_bytes(front)) => {
            Err(Refusal::PayloadAsHeader)
        }
        _ => Ok(()),
    }
}
