//! What a request of the test carries: a payload that names it, and the answers
//! that belong to it.

use crate::unreadable::{Unreadable, ANSWERS};
use reference::generator::Generator;
use reference::message::values::DEST_ACTOR;
use reference::message::Invoke;
use reference::numbers::{read_i64, read_u32, read_u64};

/// Before the code of a publisher's own error.
const ERROR_BASE: i32 = 1000;

/// The bytes of a payload between its first word and the filler.
const FIELDS: usize = 4 + 4 + 8 + 8 + 4 + 3 + 8 + 4;

#[derive(Clone, Debug, PartialEq, Eq)]
pub struct Request {
    pub front: u8,
    /// Which of the front end's connections.
    pub life: u32,
    pub number: i64,
    /// Differs for all requests of a front end.
    pub serial: u64,
    pub actor: Option<i64>,
    /// As it is meant: never 0.
    pub timeout: Option<u32>,
    pub tl2: bool,
    pub filler: u32,
}

impl Request {
    /// It says all of the request again. A payload after the TL2 marker may
    /// begin with anything, so it begins with the value of a header then.
    pub fn payload(&self) -> Vec<u8> {
        let mut payload = Vec::new();
        if self.tl2 {
            payload.extend(DEST_ACTOR.to_le_bytes());
        }
        payload.extend(b"ask ");
        payload.extend(u32::from(self.front).to_le_bytes());
        payload.extend(self.life.to_le_bytes());
        payload.extend(self.number.to_le_bytes());
        payload.extend(self.serial.to_le_bytes());
        payload.extend(self.filler.to_le_bytes());
        payload.extend([self.actor.is_some(), self.timeout.is_some(), self.tl2].map(u8::from));
        payload.extend(self.actor.unwrap_or(0).to_le_bytes());
        payload.extend(self.timeout.unwrap_or(0).to_le_bytes());
        payload.extend(Generator::new(self.serial).bytes(self.filler as usize));
        payload
    }

    pub fn invoke<'a>(&self, payload: &'a [u8]) -> Invoke<&'a [u8]> {
        Invoke {
            number: self.number,
            actor: self.actor,
            timeout: self.timeout,
            tl2: self.tl2,
            payload,
        }
    }

    /// The request that a publisher got, if its payload says the same.
    pub fn read(invoke: &Invoke<Vec<u8>>) -> Option<Request> {
        let rest = invoke.payload.get(if invoke.tl2 { 8 } else { 4 }..)?;
        let request = Request {
            front: read_u32(rest, 0) as u8,
            life: read_u32(rest, 4),
            number: read_i64(rest, 8),
            serial: read_u64(rest, 16),
            actor: invoke.actor,
            timeout: invoke.timeout,
            tl2: invoke.tl2,
            filler: rest.len().checked_sub(FIELDS)? as u32,
        };
        (request.payload() == invoke.payload).then_some(request)
    }

    /// The example's rule for routing.
    pub fn publisher(&self) -> u8 {
        self.actor.map_or(0, |actor| (actor & 7) as u8)
    }

    /// What a publisher that got the payload answers.
    pub fn answer(publisher: u8, payload: &[u8]) -> Vec<u8> {
        [b"from", &[publisher][..], payload].concat()
    }

    /// What it sends instead, where the relay is to be unable to read it.
    pub fn unreadable(payload: &[u8]) -> Unreadable {
        ANSWERS[payload.len() % ANSWERS.len()]
    }

    pub fn error_code(publisher: u8) -> i32 {
        ERROR_BASE + i32::from(publisher)
    }
}
