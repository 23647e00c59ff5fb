//! The RPC messages of document 01: what they mean, apart from their bytes.
//! Its "page" and "rest" are both called the payload here.

mod fields;
mod read;
#[cfg(test)]
mod tests;
pub mod text;
pub mod values;
mod write;

pub use read::read;
pub use write::{body, write};

/// The end of a link at which a call is made.
#[derive(Clone, Copy, Debug, PartialEq, Eq)]
pub enum Side {
    Client,
    Server,
}

/// `P` holds the payload or text: its bytes where a message is to be written,
/// its place within the body where one was read.
#[derive(Clone, Copy, Debug, PartialEq, Eq)]
pub enum Message<P> {
    Invoke(Invoke<P>),
    Cancel(i64),
    ClientFin,
    ServerFin,
    Result(i64, Outcome<P>),
}

#[derive(Clone, Copy, Debug, PartialEq, Eq)]
pub struct Invoke<P> {
    pub number: i64,
    pub actor: Option<i64>,
    /// In milliseconds. Never read as 0; given as 0 it is written as none.
    pub timeout: Option<u32>,
    pub tl2: bool,
    pub payload: P,
}

#[derive(Clone, Copy, Debug, PartialEq, Eq)]
pub enum Outcome<P> {
    Payload(P),
    /// Code and text.
    Error(i32, P),
}

/// What a timeout of so many milliseconds means: 0 is what a front end fills in
/// when its user set nothing, so it is none (document 02, A1).
fn unless_zero(timeout: u32) -> Option<u32> {
    (timeout != 0).then_some(timeout)
}

/// A part of a body.
#[derive(Clone, Copy, Debug, PartialEq, Eq)]
pub struct Span {
    pub at: usize,
    pub len: usize,
}

impl Span {
    pub fn of(self, body: &[u8]) -> &[u8] {
        &body[self.at..self.at + self.len]
    }
}

impl<P> Message<P> {
    /// The side that sends such messages.
    pub fn sender(&self) -> Side {
        match self {
            Message::Invoke(_) | Message::Cancel(_) | Message::ClientFin => Side::Client,
            Message::ServerFin | Message::Result(..) => Side::Server,
        }
    }

    /// The type of the packet it is written into. Never the old error's.
    pub fn packet_type(&self) -> u32 {
        match self {
            Message::Invoke(_) => values::INVOKE,
            Message::Cancel(_) => values::CANCEL,
            Message::ClientFin => values::CLIENT_FIN,
            Message::ServerFin => values::SERVER_FIN,
            Message::Result(..) => values::RESULT,
        }
    }

    /// The same message with its payload or text held otherwise.
    pub fn hold<Q>(self, held: impl FnOnce(P) -> Q) -> Message<Q> {
        match self {
            Message::Invoke(invoke) => Message::Invoke(Invoke {
                number: invoke.number,
                actor: invoke.actor,
                timeout: invoke.timeout,
                tl2: invoke.tl2,
                payload: held(invoke.payload),
            }),
            Message::Cancel(number) => Message::Cancel(number),
            Message::ClientFin => Message::ClientFin,
            Message::ServerFin => Message::ServerFin,
            Message::Result(number, Outcome::Payload(payload)) => {
                Message::Result(number, Outcome::Payload(held(payload)))
            }
            Message::Result(number, Outcome::Error(code, text)) => {
                Message::Result(number, Outcome::Error(code, held(text)))
            }
        }
    }
}
