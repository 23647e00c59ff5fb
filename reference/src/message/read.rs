//! Reading a body: 19 for the type, then field by field.

use super::fields::Fields;
use super::text;
use super::values as v;
use super::{unless_zero, Invoke, Message, Outcome, Side, Span};
use crate::refusal::Refusal;

type Read = Result<Message<Span>, Refusal>;

/// The message of a packet that came to `reader`.
pub fn read(reader: Side, packet_type: u32, body: &[u8]) -> Read {
    let fields = Fields::new(body);
    match (reader, packet_type) {
        (Side::Server, v::INVOKE) => invoke(fields),
        (Side::Server, v::CANCEL) => cancel(fields),
        (Side::Server, v::CLIENT_FIN) => fields.end().map(|()| Message::ClientFin),
        (Side::Client, v::RESULT) => result(fields),
        (Side::Client, v::OLD_ERROR) => old_error(fields),
        (Side::Client, v::SERVER_FIN) => fields.end().map(|()| Message::ServerFin),
        _ => Err(Refusal::NotThisWay),
    }
}

fn query_number(fields: &mut Fields) -> Result<i64, Refusal> {
    match fields.i64()? {
        0 => Err(Refusal::QueryNumberZero),
        number => Ok(number),
    }
}

/// A body that cannot hold the number is of the wrong size, not cut off.
fn cancel(mut fields: Fields) -> Read {
    if fields.left().len() < 8 {
        return Err(Refusal::WrongSize);
    }
    let number = query_number(&mut fields)?;
    fields.end()?;
    Ok(Message::Cancel(number))
}

fn invoke(mut fields: Fields) -> Read {
    let number = query_number(&mut fields)?;
    let mut headers = Headers::default();
    while let Some(value) = fields.value(&v::REQUEST_HEADERS) {
        if value == v::TL2_MARKER {
            headers.tl2 = true;
            // TL2 bytes may equal a header by chance.
            break;
        }
        headers.read(value, &mut fields)?;
    }
    Ok(Message::Invoke(Invoke {
        number,
        actor: headers.actor,
        timeout: headers.extra.flatten(),
        tl2: headers.tl2,
        payload: fields.payload(),
    }))
}

#[derive(Default)]
struct Headers {
    actor: Option<i64>,
    /// The outer option says whether there was an extra at all: even one
    /// without a timeout, or with a field of 0, may not be repeated.
    extra: Option<Option<u32>>,
    tl2: bool,
}

impl Headers {
    /// The header `value`, any but the marker. A repetition is seen at the
    /// value, before the fields.
    fn read(&mut self, value: u32, fields: &mut Fields) -> Result<(), Refusal> {
        let (has_actor, has_extra) = match value {
            v::DEST_FLAGS => (false, true),
            v::DEST_ACTOR => (true, false),
            v::DEST_ACTOR_FLAGS => (true, true),
            _ => return Err(Refusal::NotCarried),
        };
        if has_actor && self.actor.is_some() || has_extra && self.extra.is_some() {
            return Err(Refusal::HeaderRepeated);
        }
        if has_actor {
            self.actor = Some(fields.i64()?);
        }
        if has_extra {
            self.extra = Some(extra(fields)?);
        }
        Ok(())
    }
}

/// A field of 0 is taken like any other, but says as much as no field.
fn extra(fields: &mut Fields) -> Result<Option<u32>, Refusal> {
    match fields.u32()? {
        0 => Ok(None),
        v::TIMEOUT_BIT => fields.u32().map(unless_zero),
        _ => Err(Refusal::NotCarried),
    }
}

fn result(mut fields: Fields) -> Read {
    let number = query_number(&mut fields)?;
    if fields.value(&[v::RESULT_HEADER]).is_some() && fields.u32()? != 0 {
        return Err(Refusal::NotCarried);
    }
    // A result header that stands here is a second one: a first was taken.
    match fields.value(&v::RESULT_HEADERS) {
        None => Ok(Message::Result(number, Outcome::Payload(fields.payload()))),
        Some(v::RESULT_HEADER) => Err(Refusal::HeaderRepeated),
        Some(v::ERROR_NUMBERED) => {
            // A second query number, which is ignored, whatever it is.
            fields.i64()?;
            error(number, fields)
        }
        Some(_) => error(number, fields),
    }
}

fn old_error(mut fields: Fields) -> Read {
    let number = query_number(&mut fields)?;
    error(number, fields)
}

fn error(number: i64, mut fields: Fields) -> Read {
    let code = fields.i32()?;
    let text = text::read(&mut fields)?;
    fields.end()?;
    Ok(Message::Result(number, Outcome::Error(code, text)))
}
