//! Taking the records of a stored input apart, and the fields of a message to
//! be written, which two kinds of records have in common.

use crate::message::{Invoke, Message, Outcome, Side};

/// Stored inputs are made here, so a cut record is a fault of this program.
pub struct Records<'a>(pub &'a [u8]);

impl<'a> Records<'a> {
    pub fn bytes(&mut self, n: usize) -> &'a [u8] {
        let (front, others) = self.0.split_at(n);
        self.0 = others;
        front
    }

    pub fn array<const N: usize>(&mut self) -> [u8; N] {
        self.bytes(N).try_into().expect("N bytes")
    }

    /// The next kind byte; none at the end.
    pub fn op(&mut self) -> Option<u8> {
        (!self.0.is_empty()).then(|| self.u8())
    }

    pub fn u8(&mut self) -> u8 {
        self.array::<1>()[0]
    }

    pub fn flag(&mut self) -> bool {
        self.u8() == 1
    }

    pub fn u32(&mut self) -> u32 {
        u32::from_le_bytes(self.array())
    }

    pub fn u64(&mut self) -> u64 {
        u64::from_le_bytes(self.array())
    }

    pub fn i64(&mut self) -> i64 {
        self.u64() as i64
    }

    /// A length and so many bytes.
    pub fn run(&mut self) -> &'a [u8] {
        let n = self.u32() as usize;
        self.bytes(n)
    }
}

pub fn push_run(records: &mut Vec<u8>, bytes: &[u8]) {
    records.extend((bytes.len() as u32).to_le_bytes());
    records.extend(bytes);
}

pub fn other(side: Side) -> Side {
    match side {
        Side::Client => Side::Server,
        Side::Server => Side::Client,
    }
}

pub const INVOKE: u8 = 0;
pub const CANCEL: u8 = 1;
pub const CLIENT_FIN: u8 = 2;
pub const SERVER_FIN: u8 = 3;
pub const PAYLOAD: u8 = 4;
pub const ERROR: u8 = 5;

/// All the fields a message of any kind may need. Those that its kind or a
/// flag makes meaningless are stored as well, and hold something, so that a
/// program that heeds them is found out.
#[derive(Clone, Copy)]
pub struct Draft {
    pub kind: u8,
    pub number: i64,
    pub has_actor: bool,
    pub actor: i64,
    pub has_timeout: bool,
    pub timeout: u32,
    pub tl2: bool,
    pub code: i32,
}

impl Draft {
    pub fn new(kind: u8, number: i64) -> Draft {
        Draft {
            kind,
            number,
            has_actor: false,
            actor: -77,
            has_timeout: false,
            timeout: 270,
            tl2: false,
            code: -3000,
        }
    }

    pub fn actor(self, actor: i64) -> Draft {
        Draft {
            has_actor: true,
            actor,
            ..self
        }
    }

    pub fn timeout(self, timeout: u32) -> Draft {
        Draft {
            has_timeout: true,
            timeout,
            ..self
        }
    }

    pub fn tl2(self, tl2: bool) -> Draft {
        Draft { tl2, ..self }
    }

    pub fn code(self, code: i32) -> Draft {
        Draft { code, ..self }
    }

    pub fn take(records: &mut Records) -> Draft {
        Draft {
            kind: records.u8(),
            number: records.i64(),
            has_actor: records.flag(),
            actor: records.i64(),
            has_timeout: records.flag(),
            timeout: records.u32(),
            tl2: records.flag(),
            code: records.u32() as i32,
        }
    }

    pub fn push(&self, records: &mut Vec<u8>) {
        records.push(self.kind);
        records.extend(self.number.to_le_bytes());
        records.push(self.has_actor.into());
        records.extend(self.actor.to_le_bytes());
        records.push(self.has_timeout.into());
        records.extend(self.timeout.to_le_bytes());
        records.push(self.tl2.into());
        records.extend(self.code.to_le_bytes());
    }

    /// The message with `bytes` as its payload or text.
    pub fn message<'a>(&self, bytes: &'a [u8]) -> Message<&'a [u8]> {
        match self.kind {
            INVOKE => Message::Invoke(Invoke {
                number: self.number,
                actor: self.has_actor.then_some(self.actor),
                timeout: self.has_timeout.then_some(self.timeout),
                tl2: self.tl2,
                payload: bytes,
            }),
            CANCEL => Message::Cancel(self.number),
            CLIENT_FIN => Message::ClientFin,
            SERVER_FIN => Message::ServerFin,
            PAYLOAD => Message::Result(self.number, Outcome::Payload(bytes)),
            ERROR => Message::Result(self.number, Outcome::Error(self.code, bytes)),
            kind => unreachable!("no message of kind {kind} is stored"),
        }
    }
}
