//! Reading messages with relay_read_message and with the second program's reader, in one run.
//!
//! For each message the two take turns, and the shortest time of each counts. Before that their answers are compared
//! field by field. Bodies stay in the cache; neither reader copies a payload or text.

use reference::message::{body, read, values, Invoke, Message, Outcome, Side, Span};
use reference::refusal::Refusal;
use std::hint::black_box;
use std::time::Instant;

#[repr(C)]
#[derive(Debug, Default, PartialEq)]
struct RelayMessage {
    kind: u8,
    refusal: u8,
    hasactor: bool,
    hastimeout: bool,
    tl2: bool,
    number: i64,
    actor: i64,
    timeout: u32,
    code: i32,
    at: usize,
    len: usize,
}

extern "C" {
    fn relay_read_message(server: bool, tag: u32, body: *const u8, length: usize) -> RelayMessage;
}

const CALLS: u32 = 10_000;
const ROUNDS: u32 = 400;

struct Case {
    name: &'static str,
    reader: Side,
    tag: u32,
    body: Vec<u8>,
}

impl Case {
    fn new(name: &'static str, message: Message<&[u8]>) -> Case {
        let reader = match message.sender() {
            Side::Client => Side::Server,
            Side::Server => Side::Client,
        };
        let body = body(&message).expect("a message that can be written");
        Case { name, reader, tag: message.packet_type(), body }
    }

    fn ours(&self) -> RelayMessage {
        unsafe { relay_read_message(self.reader == Side::Server, self.tag, self.body.as_ptr(), self.body.len()) }
    }

    fn second(&self) -> Result<Message<Span>, Refusal> {
        read(self.reader, self.tag, &self.body)
    }
}

/// The second program's answer in the fields of ours.
fn fields(answer: Result<Message<Span>, Refusal>) -> RelayMessage {
    let none = RelayMessage::default();
    match answer {
        Err(refusal) => RelayMessage { refusal: refusal.number(), ..none },
        Ok(Message::Invoke(i)) => RelayMessage {
            kind: 1,
            hasactor: i.actor.is_some(),
            hastimeout: i.timeout.is_some(),
            tl2: i.tl2,
            number: i.number,
            actor: i.actor.unwrap_or(0),
            timeout: i.timeout.unwrap_or(0),
            at: i.payload.at,
            len: i.payload.len,
            ..none
        },
        Ok(Message::Cancel(number)) => RelayMessage { kind: 2, number, ..none },
        Ok(Message::ClientFin) => RelayMessage { kind: 3, ..none },
        Ok(Message::Result(number, Outcome::Payload(Span { at, len }))) => RelayMessage { kind: 4, number, at, len, ..none },
        Ok(Message::Result(number, Outcome::Error(code, Span { at, len }))) => {
            RelayMessage { kind: 5, number, code, at, len, ..none }
        }
        Ok(Message::ServerFin) => RelayMessage { kind: 6, ..none },
    }
}

fn cases(payload: &[u8]) -> Vec<Case> {
    let plain = Invoke { number: 77, actor: None, timeout: None, tl2: false, payload };
    let headed = Invoke { actor: Some(-5), timeout: Some(300), ..plain };
    vec![
        Case::new("invoke, actor and timeout, 1 KiB", Message::Invoke(headed)),
        zero_timeout(Case::new("invoke, actor and a timeout of 0, 1 KiB", Message::Invoke(headed))),
        Case::new("invoke, no header, 1 KiB", Message::Invoke(plain)),
        Case::new("result, 1 KiB", Message::Result(77, Outcome::Payload(payload))),
        Case::new("result, error with a text of 64 bytes", Message::Result(77, Outcome::Error(-3000, &payload[..64]))),
    ]
}

/// With a field of 0, which no writer writes.
fn zero_timeout(case: Case) -> Case {
    let mut case = case;
    case.body[24..28].fill(0);
    case
}

/// Cases that are compared and not timed: the other kinds, and bodies that are cut.
fn others(cases: &[Case]) -> Vec<Case> {
    let case = |reader, tag, body: &[u8]| Case { name: "", reader, tag, body: body.to_vec() };
    let mut others = vec![
        Case::new("", Message::Cancel(-1)),
        Case::new("", Message::ClientFin),
        Case::new("", Message::ServerFin),
        case(Side::Server, values::RESULT, &[]),
    ];
    for whole in cases {
        others.extend((0..whole.body.len()).map(|end| case(whole.reader, whole.tag, &whole.body[..end])));
    }
    others
}

fn compare(case: &Case) {
    assert_eq!(case.ours(), fields(case.second()), "{}, {} bytes", case.name, case.body.len());
}

/// Nanoseconds a call.
fn time<T>(case: &Case, read: impl Fn(&Case) -> T) -> f64 {
    let start = Instant::now();
    for _ in 0..CALLS {
        black_box(read(black_box(case)));
    }
    start.elapsed().as_nanos() as f64 / f64::from(CALLS)
}

fn main() {
    let mut state = 1u32;
    let payload: Vec<u8> = (0..1024)
        .map(|_| {
            state = state.wrapping_mul(1_664_525).wrapping_add(1_013_904_223);
            (state >> 24) as u8
        })
        .collect();
    let cases = cases(&payload);
    cases.iter().chain(&others(&cases)).for_each(compare);
    println!("\nNanoseconds a call, and how many times ours is as fast.\n");
    println!("| message | relay_read_message | second program |\n|---|---|---|");
    for case in &cases {
        let (mut ours, mut second) = (f64::INFINITY, f64::INFINITY);
        for _ in 0..ROUNDS {
            ours = ours.min(time(case, Case::ours));
            second = second.min(time(case, Case::second));
        }
        println!("| {} | {ours:.1} | {second:.1} ({:.2}) |", case.name, second / ours);
    }
}
