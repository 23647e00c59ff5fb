//! RPC messages: what they mean, and reading them.

use crate::packet_type::{CANCEL, CLIENT_FIN, INVOKE, RESULT, SERVER_FIN};
use crate::{raw, Refusal, Side};

/// A message, read or to be written.
#[derive(Clone, Copy, Debug, PartialEq, Eq)]
pub enum Message<'a> {
    Invoke(Invoke<'a>),
    Cancel { number: i64 },
    ClientFin,
    Result { number: i64, answer: Answer<'a> },
    ServerFin,
}

#[derive(Clone, Copy, Debug, PartialEq, Eq)]
pub struct Invoke<'a> {
    /// The query number, not 0.
    pub number: i64,
    pub actor: Option<i64>,
    /// In milliseconds. It is never read as 0, and one of 0 is sent as none.
    pub timeout: Option<u32>,
    /// Whether the payload is in TL2.
    pub tl2: bool,
    pub payload: &'a [u8],
}

/// What a result answers.
#[derive(Clone, Copy, Debug, PartialEq, Eq)]
pub enum Answer<'a> {
    Payload(&'a [u8]),
    Error { code: i32, text: &'a [u8] },
}

impl Message<'_> {
    /// The type of the packet that it is written into.
    pub fn packet_type(&self) -> u32 {
        match self {
            Message::Invoke(_) => INVOKE,
            Message::Cancel { .. } => CANCEL,
            Message::ClientFin => CLIENT_FIN,
            Message::Result { .. } => RESULT,
            Message::ServerFin => SERVER_FIN,
        }
    }
}

/// The message of a packet of this type and body, as `reader` reads it.
pub fn read_message(reader: Side, kind: u32, body: &[u8]) -> Result<Message<'_>, Refusal> {
    let server = reader == Side::Server;
    // SAFETY: the pointer and length are a slice's.
    let m = unsafe { raw::relay_read_message(server, kind, body.as_ptr(), body.len()) };
    let number = m.number;
    let part = &body[m.at..][..m.len];
    match m.kind {
        0 => Err(Refusal::of(m.refusal)),
        1 => Ok(Message::Invoke(Invoke {
            number,
            actor: m.hasactor.then_some(m.actor),
            timeout: m.hastimeout.then_some(m.timeout),
            tl2: m.tl2,
            payload: part,
        })),
        2 => Ok(Message::Cancel { number }),
        3 => Ok(Message::ClientFin),
        4 => Ok(Message::Result {
            number,
            answer: Answer::Payload(part),
        }),
        5 => Ok(Message::Result {
            number,
            answer: Answer::Error {
                code: m.code,
                text: part,
            },
        }),
        6 => Ok(Message::ServerFin),
        other => unreachable!("a message of kind {other}"),
    }
}
