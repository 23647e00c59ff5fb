//! The messages that the message check writes.

use super::message_cases::{push_read, push_write, LONGEST};
use super::message_reads::header_values;
use super::records::{self, other, Draft};
use crate::generator::Generator;
use crate::message;

pub fn push(records: &mut Vec<u8>, generator: &mut Generator) {
    let mut writes = Writes { records };
    invokes(&mut writes, generator);
    without_payload(&mut writes);
    results(&mut writes, generator);
    errors(&mut writes, generator);
    header_payloads(&mut writes);
    near_header_payloads(&mut writes);
    random(&mut writes, generator);
    very_long(&mut writes, generator);
}

struct Writes<'a> {
    records: &'a mut Vec<u8>,
}

impl Writes<'_> {
    /// With room just enough, one byte less, none, and more than enough. A
    /// timeout of 0 once took a field, as any other still does: these records
    /// keep the rooms they had then.
    fn push(&mut self, draft: &Draft, bytes: &[u8]) {
        let size = size_with_field(draft, bytes).unwrap_or(40);
        for room in [size, size.saturating_sub(1), 0, size + 7] {
            self.roomy(draft, room, bytes);
        }
    }

    fn roomy(&mut self, draft: &Draft, room: usize, bytes: &[u8]) {
        push_write(self.records, draft, room, bytes);
    }

    /// The written body, if there is one, read at the other side.
    fn read_back(&mut self, draft: &Draft, bytes: &[u8]) {
        let message = draft.message(bytes);
        if let Ok(body) = message::body(&message) {
            let reader = other(message.sender());
            push_read(self.records, reader, message.packet_type(), &body);
        }
    }
}

/// The size of the body with a field for its timeout even if that is 0; none
/// if the message is refused.
pub fn size_with_field(draft: &Draft, bytes: &[u8]) -> Option<usize> {
    let timeout = draft.timeout.max(1);
    let draft = Draft { timeout, ..*draft };
    let body = message::body(&draft.message(bytes));
    body.ok().map(|body| body.len())
}

const NUMBERS: [i64; 6] = [0, 1, -1, i64::MIN, i64::MAX, 1 << 32];

fn invokes(writes: &mut Writes, generator: &mut Generator) {
    for actor in [None, Some(0), Some(5), Some(i64::MIN)] {
        for timeout in [None, Some(0), Some(270), Some(u32::MAX)] {
            for n in [0, 1, 4, 9] {
                let number = generator.pick(&NUMBERS[1..]);
                let mut draft = Draft::new(records::INVOKE, number);
                draft = actor.map_or(draft, |actor| draft.actor(actor));
                draft = timeout.map_or(draft, |timeout| draft.timeout(timeout));
                let payload = generator.bytes(n);
                writes.push(&draft, &payload);
                writes.push(&draft.tl2(true), &payload);
            }
        }
    }
}

/// Cancels and fins, whose bytes are ignored, and every kind with number 0.
fn without_payload(writes: &mut Writes) {
    for number in NUMBERS {
        for kind in [records::CANCEL, records::CLIENT_FIN, records::SERVER_FIN] {
            writes.push(&Draft::new(kind, number), b"");
            writes.push(&Draft::new(kind, number).tl2(true), b"ignored");
        }
    }
    for kind in records::INVOKE..=records::ERROR {
        let draft = Draft::new(kind, 0).actor(0).timeout(0);
        writes.push(&draft, b"");
        writes.push(&draft, b"payload");
    }
}

fn results(writes: &mut Writes, generator: &mut Generator) {
    for n in 0..10 {
        let draft = Draft::new(records::PAYLOAD, generator.pick(&NUMBERS[1..]));
        writes.push(&draft, &generator.bytes(n));
        // An actor, a timeout and the marker have no meaning in a result.
        let draft = draft.actor(1).timeout(1).tl2(true);
        writes.push(&draft, &generator.bytes(n));
    }
}

fn errors(writes: &mut Writes, generator: &mut Generator) {
    let lengths = [0, 1, 2, 3, 4, 5, 251, 252, 253, 254, 255, 256, 257];
    for len in lengths {
        for code in [0, 1, -1, i32::MIN, i32::MAX] {
            let draft = Draft::new(records::ERROR, generator.pick(&NUMBERS[1..]));
            writes.push(&draft.code(code), &generator.bytes(len));
        }
    }
}

/// Payloads that begin with a header value, or with all but its last byte;
/// 12 comes before 15, and 15 before 16.
fn header_payloads(writes: &mut Writes) {
    for value in header_values() {
        let payload = [&value.to_le_bytes()[..], b"more"].concat();
        for kind in [records::INVOKE, records::PAYLOAD, records::ERROR] {
            for draft in [Draft::new(kind, 1), Draft::new(kind, 1).actor(2).timeout(3)] {
                for n in [3, 4, 5, 8] {
                    writes.push(&draft, &payload[..n]);
                    writes.push(&draft.tl2(true), &payload[..n]);
                }
            }
            writes.push(&Draft::new(kind, 0), &payload);
        }
    }
}

/// One bit away from a header value, its bytes turned round, or one later.
fn near_header_payloads(writes: &mut Writes) {
    for value in header_values() {
        let bits = (0..32).map(|bit| value ^ 1 << bit);
        let near = bits.chain([value.swap_bytes(), value << 8]);
        for payload in near.map(u32::to_le_bytes) {
            for kind in [records::INVOKE, records::PAYLOAD] {
                writes.roomy(&Draft::new(kind, 1), 12, &payload);
            }
        }
    }
}

fn random(writes: &mut Writes, generator: &mut Generator) {
    for _ in 0..600 {
        let kind = generator.below(6) as u8;
        let mut draft = Draft::new(kind, generator.draw() as i64);
        if generator.below(2) == 0 {
            draft = draft.actor(generator.draw() as i64);
        }
        if generator.below(2) == 0 {
            draft = draft.timeout(generator.draw() as u32);
        }
        let draft = draft
            .tl2(generator.below(2) == 0)
            .code(generator.draw() as i32);
        let n = generator.below(40) as usize;
        let bytes = generator.bytes(n);
        let room = generator.below(100) as usize;
        writes.roomy(&draft, room, &bytes);
        writes.read_back(&draft, &bytes);
    }
}

fn very_long(writes: &mut Writes, generator: &mut Generator) {
    let text = generator.bytes(70_000);
    writes.roomy(&Draft::new(records::ERROR, -5), LONGEST, &text);
    writes.roomy(&Draft::new(records::ERROR, -5), 70_022, &text[1..]);
    let payload = generator.bytes(LONGEST);
    let draft = Draft::new(records::INVOKE, 5).actor(6).timeout(7).tl2(true);
    writes.roomy(&draft, LONGEST, &payload[32..]);
    writes.roomy(&draft, LONGEST, &payload[31..]);
}
