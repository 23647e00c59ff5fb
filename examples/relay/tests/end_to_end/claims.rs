//! What a front end has open on one connection, and whether an answer that
//! comes belongs to it.

use crate::request::Request;
use crate::REQUEST_MS;
use reference::message::Outcome;
use std::collections::{BTreeMap, VecDeque};
use std::time::{Duration, Instant};

pub struct Claim {
    pub request: Request,
    pub payload: Vec<u8>,
    pub since: Instant,
    /// The request cannot be read: only an error with this code may come.
    pub refusal: Option<i32>,
    /// A cancel was sent; its end is told by the Pong to a later Ping.
    pub cancelled: bool,
}

/// Under a number there is one claim, or two if it was asked for again on
/// purpose: then the relay ends the link, with nothing more under that number,
/// or it had answered the first before it saw the second, and answers that too.
#[derive(Default)]
pub struct Claims(BTreeMap<i64, VecDeque<Claim>>);

impl Claims {
    pub fn insert(&mut self, claim: Claim) {
        let number = claim.request.number;
        self.0.entry(number).or_default().push_back(claim);
    }

    pub fn is_free(&self, number: i64) -> bool {
        !self.0.contains_key(&number)
    }

    pub fn count(&self) -> usize {
        self.0.values().map(VecDeque::len).sum()
    }

    pub fn has_two(&self, number: i64) -> bool {
        self.0.get(&number).is_some_and(|claims| claims.len() == 2)
    }

    /// The numbers with one claim that is not cancelled.
    pub fn single(&self) -> Vec<i64> {
        let is_single = |claims: &VecDeque<Claim>| claims.len() == 1 && !claims[0].cancelled;
        let single = self.0.iter().filter(|(_, claims)| is_single(claims));
        single.map(|(number, _)| *number).collect()
    }

    pub fn get(&mut self, number: i64) -> Option<&mut Claim> {
        self.0.get_mut(&number)?.front_mut()
    }

    /// The end of a request by the result that came under `number`: how it is
    /// to be counted, and whether it was cancelled; or what is wrong with it.
    pub fn ended(
        &mut self,
        number: i64,
        outcome: &Outcome<Vec<u8>>,
    ) -> Result<(&'static str, bool), String> {
        let wrong = |what: &str| Err(format!("{what} under {number}: {}", brief(outcome)));
        let Some(claims) = self.0.get_mut(&number) else {
            return wrong("a result for nothing open");
        };
        let Some(first) = claims.front() else {
            return wrong("no claim");
        };
        let Some(name) = name(first, outcome) else {
            let age = first.since.elapsed();
            return wrong(&format!("a result of something else after {age:?}"));
        };
        let claim = claims.pop_front();
        if claims.is_empty() {
            self.0.remove(&number);
        }
        Ok((name, claim.is_some_and(|claim| claim.cancelled)))
    }

    /// A cancel is acknowledged: from now on nothing may come for it. False if
    /// it was answered before.
    pub fn gone(&mut self, number: i64, serial: u64) -> bool {
        let is_it = |claim: &mut Claim| claim.cancelled && claim.request.serial == serial;
        let gone = self.get(number).is_some_and(is_it);
        if gone {
            self.0.remove(&number);
        }
        gone
    }
}

/// The way in which a request ends with this outcome; none if it cannot.
fn name(claim: &Claim, outcome: &Outcome<Vec<u8>>) -> Option<&'static str> {
    let publisher = claim.request.publisher();
    match (claim.refusal, outcome) {
        (Some(refusal), Outcome::Error(code, _)) if *code == refusal => Some("unreadable requests"),
        (Some(_), _) => None,
        (None, Outcome::Payload(payload)) => {
            let is_its_own = *payload == Request::answer(publisher, &claim.payload);
            is_its_own.then_some("answers")
        }
        (None, Outcome::Error(code, text)) => match code {
            20 => Some("refused 20"),
            32 => Some("refused 32"),
            33 => Some("refused 33"),
            100 if claim.since.elapsed() >= Duration::from_millis(REQUEST_MS - 1) => {
                Some("ran out")
            }
            _ if *code == Request::unreadable(&claim.payload).refusal => Some("unreadable answers"),
            _ => {
                let is_its_own = *code == Request::error_code(publisher) && *text == claim.payload;
                is_its_own.then_some("publisher errors")
            }
        },
    }
}

/// An outcome in short, for a fault.
fn brief(outcome: &Outcome<Vec<u8>>) -> String {
    let (name, bytes) = match outcome {
        Outcome::Payload(payload) => ("payload".to_string(), payload),
        Outcome::Error(code, text) => (format!("error {code}"), text),
    };
    let front = &bytes[..bytes.len().min(48)];
    format!("{name}, {} bytes: {}", bytes.len(), front.escape_ascii())
}
