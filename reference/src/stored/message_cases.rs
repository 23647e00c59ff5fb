//! The message check's input and output: bodies read and messages written.
//!
//! A record is an op. Op 0 reads: side (0 if a server reads, 1 if a client),
//! type (4 bytes), then n (4 bytes) and n bytes of body. Op 1 writes: the
//! fields of a message, room (4 bytes), then n (4 bytes) and n bytes, its
//! payload or text. The lent buffer of `room` bytes is full of 0xa5 before.
//!
//! The records of a later request come behind all earlier ones, whose bytes
//! stay.

#[cfg(test)]
mod tests;

use super::message_reads;
use super::message_writes;
use super::message_zero_reads;
use super::message_zero_writes;
use super::records::{push_run, Draft, Records};
use crate::checksum::CRC32;
use crate::generator::Generator;
use crate::message::{self, Message, Outcome, Side, Span};
use crate::refusal::Refusal;

/// What a lent buffer holds before the call.
pub const FILLING: u8 = 0xa5;

/// The most that a body, a payload or a room may have here.
pub const LONGEST: usize = 80_000;

pub fn input() -> Vec<u8> {
    let mut generator = Generator::new(0x4D53);
    let mut records = Vec::new();
    message_reads::push(&mut records, &mut generator);
    message_writes::push(&mut records, &mut generator);
    message_zero_reads::push(&mut records);
    message_zero_writes::push(&mut records);
    records
}

pub fn push_read(records: &mut Vec<u8>, reader: Side, packet_type: u32, body: &[u8]) {
    assert!(body.len() <= LONGEST);
    records.push(0);
    records.push((reader == Side::Client).into());
    records.extend(packet_type.to_le_bytes());
    push_run(records, body);
}

pub fn push_write(records: &mut Vec<u8>, draft: &Draft, room: usize, bytes: &[u8]) {
    assert!(room <= LONGEST && bytes.len() <= LONGEST);
    records.push(1);
    draft.push(records);
    records.extend((room as u32).to_le_bytes());
    push_run(records, bytes);
}

pub fn output(records: &[u8]) -> Vec<u8> {
    let mut records = Records(records);
    let mut lines = String::new();
    while let Some(op) = records.op() {
        let line = if op == 0 {
            read_line(&mut records)
        } else {
            write_line(&mut records)
        };
        lines += &line.unwrap_or_else(|refusal| format!("no {}", refusal.number()));
        lines.push('\n');
    }
    lines.into_bytes()
}

fn read_line(records: &mut Records) -> Result<String, Refusal> {
    let reader = if records.flag() {
        Side::Client
    } else {
        Side::Server
    };
    let packet_type = records.u32();
    message::read(reader, packet_type, records.run()).map(meaning)
}

fn meaning(message: Message<Span>) -> String {
    match message {
        Message::Invoke(invoke) => {
            let actor = or_dash(invoke.actor);
            let timeout = or_dash(invoke.timeout);
            let tl2 = u8::from(invoke.tl2);
            let Span { at, len } = invoke.payload;
            format!(
                "invoke {} {actor} {timeout} {tl2} {at} {len}",
                invoke.number
            )
        }
        Message::Cancel(number) => format!("cancel {number}"),
        Message::ClientFin => "client_fin".to_string(),
        Message::ServerFin => "server_fin".to_string(),
        Message::Result(number, Outcome::Payload(Span { at, len })) => {
            format!("result {number} payload {at} {len}")
        }
        Message::Result(number, Outcome::Error(code, Span { at, len })) => {
            format!("result {number} error {code} {at} {len}")
        }
    }
}

fn or_dash(number: Option<impl ToString>) -> String {
    number.map_or("-".to_string(), |number| number.to_string())
}

fn write_line(records: &mut Records) -> Result<String, Refusal> {
    let draft = Draft::take(records);
    let mut buffer = vec![FILLING; records.u32() as usize];
    let size = message::write(&draft.message(records.run()), &mut buffer)?;
    Ok(format!("size {size} {:08x}", CRC32.of(&buffer)))
}
