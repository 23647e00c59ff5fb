//! A derivation in a record of the keys check: version, sender (0 client, 1
//! server), client and server (random 16 bytes, time 4, IP 4, port 2 each), the
//! 32 shared bytes, the buffer's length 4, the byte that fills the buffer
//! beforehand, the key's length 4 and the key.

use super::keys_cases::{DERIVE, LONGEST};
use super::link_settings::take_side;
use super::records::{push_run, Records};
use crate::generator::Generator;
use crate::keys::{Peer, Request};
use crate::message::Side;

/// The buffer that a derivation is lent.
#[derive(Clone, Copy)]
pub struct Lent {
    pub room: usize,
    pub filling: u8,
}

pub fn push(records: &mut Vec<u8>, request: &Request, lent: Lent) {
    assert!(request.key.len() <= LONGEST && lent.room <= LONGEST);
    records.extend([DERIVE, request.version]);
    records.push((request.sender == Side::Server).into());
    for peer in [&request.client, &request.server] {
        push_peer(records, peer);
    }
    records.extend(request.shared);
    records.extend((lent.room as u32).to_le_bytes());
    records.push(lent.filling);
    push_run(records, request.key);
}

fn push_peer(records: &mut Vec<u8>, peer: &Peer) {
    records.extend(peer.random);
    records.extend(peer.time.to_le_bytes());
    records.extend(peer.ip.to_le_bytes());
    records.extend(peer.port.to_le_bytes());
}

/// The request and the buffer as it is before the call.
pub fn take<'a>(records: &mut Records<'a>) -> (Request<'a>, Vec<u8>) {
    let version = records.u8();
    let sender = take_side(records);
    let (client, server) = (take_peer(records), take_peer(records));
    let shared = records.array();
    let room = records.u32() as usize;
    let buffer = vec![records.u8(); room];
    let request = Request {
        version,
        sender,
        client,
        server,
        key: records.run(),
        shared,
    };
    (request, buffer)
}

pub fn take_peer(records: &mut Records) -> Peer {
    Peer {
        random: records.array(),
        time: records.u32(),
        ip: records.u32(),
        port: u16::from_le_bytes(records.array()),
    }
}

/// Everything but version, sender and key at random.
pub fn draw<'a>(
    generator: &mut Generator,
    version: u8,
    sender: Side,
    key: &'a [u8],
) -> Request<'a> {
    Request {
        version,
        sender,
        client: draw_peer(generator),
        server: draw_peer(generator),
        key,
        shared: std::array::from_fn(|_| generator.byte()),
    }
}

fn draw_peer(generator: &mut Generator) -> Peer {
    Peer {
        random: std::array::from_fn(|_| generator.byte()),
        time: generator.draw() as u32,
        ip: generator.draw() as u32,
        port: generator.draw() as u16,
    }
}

/// The size of the message; for a version that has none, what it would be if
/// the version were taken for 2.
pub fn size(version: u8, key: usize) -> usize {
    let around = if version < 2 { 86 } else { 118 };
    around + key
}

#[cfg(test)]
mod tests {
    use super::*;
    use crate::keys::{init_message, printed};

    #[test]
    fn what_is_pushed_is_taken() {
        let mut generator = Generator::new(1);
        for sender in [Side::Client, Side::Server] {
            let request = draw(&mut generator, 3, sender, b"key");
            let mut records = Vec::new();
            let (room, filling) = (300, 7);
            push(&mut records, &request, Lent { room, filling });
            assert_eq!(records.len(), 1 + 2 + 26 + 26 + 32 + 4 + 1 + 4 + 3);
            let mut records = Records(&records[1..]);
            assert_eq!(take(&mut records), (request, vec![7; 300]));
            assert_eq!(records.op(), None);
        }
    }

    #[test]
    fn sizes_of_messages() {
        for version in printed::VERSIONS {
            let message = init_message(&printed::request(version, Side::Client));
            assert_eq!(message.len(), size(version, 4));
        }
    }
}
