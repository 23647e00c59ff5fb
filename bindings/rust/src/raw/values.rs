//! The layout on the archive's side, seen by values: each field that a call
//! writes gets a value that no other field has and is read here, and each field
//! that a call reads is written here and seen by what the call does.

mod cipher;
mod keys;
mod links;
mod messages;
mod padded;
mod sends;
mod settings;
mod tables;

use super::*;

/// The number of each direction's first packet.
const FIRST_PACKET: u32 = u32::MAX - 1;

/// A packet under CRC-32.
fn packet(number: u32, kind: u32, body: &[u8]) -> Vec<u8> {
    let length = body.len() as u32 + 16;
    let mut packet: Vec<u8> = [length, number, kind]
        .into_iter()
        .flat_map(u32::to_le_bytes)
        .collect();
    packet.extend(body);
    let sum = crate::checksum::crc32(&packet);
    packet.extend(sum.to_le_bytes());
    packet
}

/// The body of a Nonce.
fn nonce(version: u8, time: u32) -> Vec<u8> {
    let mut body = vec![0; 60];
    body[5] = version;
    body[8..12].copy_from_slice(&time.to_le_bytes());
    body
}

/// Every other setting as if it is not said.
const fn settings(server: bool, allows: bool) -> Settings {
    Settings {
        server,
        allows,
        lowest: 0,
        padded: false,
        cipher: false,
        only: false,
    }
}

fn set_up(settings: Settings) -> SetUp {
    unsafe { relay_set_up(settings) }
}

fn set_up_with_key(settings: Settings, key: &[u8]) -> SetUp {
    unsafe { relay_set_up_with_key(settings, key.as_ptr(), key.len()) }
}

fn link(server: bool, allows: bool) -> Link {
    let answer = set_up(settings(server, allows));
    assert_eq!(answer.refusal, 0);
    answer.link
}

fn receive(link: &mut Link, bytes: &[u8], time: u32) -> Arrival {
    unsafe { relay_receive(link, bytes.as_ptr(), bytes.len(), Moment { time }) }
}

fn send(link: &mut Link, buf: &mut [u8], payload: &[u8], outgoing: Outgoing) -> Sent {
    let moment = Moment { time: 0x0403_0201 };
    unsafe {
        relay_send(
            link,
            buf.as_mut_ptr(),
            buf.len(),
            payload.as_ptr(),
            payload.len(),
            outgoing,
            moment,
        )
    }
}

fn flush(link: &mut Link, buf: &mut [u8]) -> Sent {
    unsafe { relay_flush(link, buf.as_mut_ptr(), buf.len()) }
}
