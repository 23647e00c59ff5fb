//! The link check's input and output: conversations, each of one link with a
//! peer whose bytes are stored.
//!
//! A record is an op, for the newest link. Op 0 is a new link: side (0 client,
//! 1 server) and whether CRC-32C is allowed. Op 1 receives: our time (4 bytes),
//! then n (4 bytes) and the n bytes lent. Op 2 sends: see `Sending`; its line
//! has both checksums of the whole lent buffer, since a checksum over a packet
//! that ends with the same one is the same for every packet. Op 3 is a link set
//! up with every setting: see `link_settings`; if that is refused, the newest
//! link stays as it was. Op 5 flushes: room (4 bytes); its line is like that of
//! a send. Op 6 has no fields; its line tells whether the link is ciphered. Op
//! 4 is kept free. A line ends with ` closed` if the newest link is closed
//! after the op.
//!
//! The conversations of a later request come behind all earlier ones, whose
//! bytes stay.

#[cfg(test)]
mod tests;

use super::link_bodies;
use super::link_ciphered;
use super::link_closing;
use super::link_fronts;
use super::link_openings;
use super::link_padded;
use super::link_pings;
use super::link_random;
use super::link_sending::Sending;
use super::link_settings;
use super::link_turns;
use super::link_versions;
use super::link_zero_timeouts;
use super::message_cases::FILLING;
use super::records::Records;
use crate::checksum::{CRC32, CRC32C};
use crate::generator::Generator;
use crate::link::{Link, Received};
use crate::refusal::Refusal;

pub const NEW: u8 = 0;
pub const RECEIVE: u8 = 1;
pub const SEND: u8 = 2;
pub const SET_UP: u8 = 3;
pub const FLUSH: u8 = 5;
pub const TELL: u8 = 6;

pub fn input() -> Vec<u8> {
    let mut generator = Generator::new(0x11_4B);
    let mut records = Vec::new();
    link_openings::push(&mut records, &mut generator);
    link_fronts::push(&mut records, &mut generator);
    link_bodies::push(&mut records, &mut generator);
    link_pings::push(&mut records, &mut generator);
    link_turns::push(&mut records, &mut generator);
    link_closing::push(&mut records);
    link_random::push(&mut records, &mut generator);
    link_versions::push(&mut records);
    link_padded::push(&mut records);
    link_ciphered::push(&mut records);
    link_zero_timeouts::push(&mut records);
    records
}

pub fn output(records: &[u8]) -> Vec<u8> {
    let mut records = Records(records);
    let mut lines = String::new();
    let mut link = None;
    while let Some(op) = records.op() {
        let line = match (op, &mut link) {
            (NEW, _) => {
                link = Some(new_link(&mut records));
                Ok("link".to_string())
            }
            (SET_UP, _) => set_up(&mut records).map(|new| {
                link = Some(new);
                "link".to_string()
            }),
            (RECEIVE, Some(link)) => receive_line(link, &mut records),
            (SEND, Some(link)) => send_line(link, &mut records),
            (FLUSH, Some(link)) => flush_line(link, &mut records),
            (TELL, Some(link)) => Ok(tell_line(link)),
            _ => unreachable!("op {op}, or no link before it"),
        };
        lines += &line.unwrap_or_else(|refusal| format!("no {}", refusal.number()));
        if link.as_ref().is_some_and(Link::is_closed) {
            lines += " closed";
        }
        lines.push('\n');
    }
    lines.into_bytes()
}

fn new_link(records: &mut Records) -> Link {
    let side = link_settings::take_side(records);
    Link::new(side, records.flag())
}

fn set_up(records: &mut Records) -> Result<Link, Refusal> {
    let (settings, key) = link_settings::take(records);
    link_settings::set_up(settings, key)
}

fn receive_line(link: &mut Link, records: &mut Records) -> Result<String, Refusal> {
    let our_time = records.u32();
    let line = match link.receive(records.run(), our_time)? {
        Received::Wait(more) => format!("wait {more}"),
        Received::Packet {
            packet_type,
            consumed,
            body,
            clock,
        } => {
            let packet = format!(
                "packet {packet_type:08x} {consumed} {} {}",
                body.at, body.len
            );
            clock.map_or(packet.clone(), |clock| format!("{packet} clock {clock}"))
        }
    };
    Ok(line)
}

fn send_line(link: &mut Link, records: &mut Records) -> Result<String, Refusal> {
    let (sending, room) = Sending::take(records);
    let mut buffer = vec![FILLING; room];
    let size = link.send(&sending.outgoing(), &mut buffer)?;
    Ok(written_line("sent", size, &buffer))
}

fn flush_line(link: &mut Link, records: &mut Records) -> Result<String, Refusal> {
    let mut buffer = vec![FILLING; records.u32() as usize];
    let size = link.flush(&mut buffer)?;
    Ok(written_line("flush", size, &buffer))
}

fn tell_line(link: &Link) -> String {
    let told = if link.state().ciphered {
        "cipher"
    } else {
        "clear"
    };
    told.to_string()
}

fn written_line(op: &str, size: usize, buffer: &[u8]) -> String {
    let (one, other) = (CRC32.of(buffer), CRC32C.of(buffer));
    format!("{op} {size} {one:08x} {other:08x}")
}
