//! Derivations that show which parts the message has, and in which order.

use super::keys_request::{self, size, take_peer, Lent};
use super::link_talk::SIDES;
use super::records::Records;
use crate::keys::{printed, Request};
use crate::message::Side;

/// What the parts of a request take, in the order of a record: random, time, IP
/// and port of either end, the shared bytes, and a key.
const PARTS: [usize; 10] = [16, 4, 4, 2, 16, 4, 4, 2, 32, 4];
const BEFORE_KEY: usize = 84;

pub fn push(records: &mut Vec<u8>) {
    for version in printed::VERSIONS {
        for sender in SIDES {
            all_different(records, version, sender);
            one_part_alone(records, version, sender);
        }
    }
}

/// A request of these bytes.
fn of_bytes(version: u8, sender: Side, bytes: &[u8]) -> Request<'_> {
    let (front, key) = bytes.split_at(BEFORE_KEY);
    let mut front = Records(front);
    Request {
        version,
        sender,
        client: take_peer(&mut front),
        server: take_peer(&mut front),
        shared: front.array(),
        key,
    }
}

fn push_one(records: &mut Vec<u8>, request: &Request) {
    let room = size(request.version, request.key.len());
    let filling = 0xee;
    keys_request::push(records, request, Lent { room, filling });
}

/// No byte comes twice, so no two parts and no two bytes of a part can change
/// places unseen, and a part that a version leaves out would show.
fn all_different(records: &mut Vec<u8>, version: u8, sender: Side) {
    for key in [2, 4, 6, 16, 32] {
        for first in [1, 60, 129, 200_u8] {
            let count = (BEFORE_KEY + key) as u8;
            let bytes: Vec<u8> = (0..count).map(|i| first.wrapping_add(i)).collect();
            let request = of_bytes(version, sender, &bytes);
            push_one(records, &request);
            let ends_swapped = Request {
                client: request.server,
                server: request.client,
                ..request
            };
            push_one(records, &ends_swapped);
        }
    }
}

/// All others are zeros; then all are.
fn one_part_alone(records: &mut Vec<u8>, version: u8, sender: Side) {
    let mut at = 0;
    for part in PARTS {
        let mut bytes = [0; BEFORE_KEY + 4];
        bytes[at..at + part].fill(0xff);
        push_one(records, &of_bytes(version, sender, &bytes));
        at += part;
    }
    let nothing = [0; BEFORE_KEY + 4];
    push_one(records, &of_bytes(version, sender, &nothing));
}

#[cfg(test)]
mod tests {
    use super::*;

    #[test]
    fn parts_fill_a_request() {
        assert_eq!(PARTS.iter().sum::<usize>(), BEFORE_KEY + 4);
        let bytes: Vec<u8> = (0..88).collect();
        let request = of_bytes(0, Side::Client, &bytes);
        assert_eq!(request.client.time, 0x1312_1110);
        assert_eq!(request.server.ip, 0x3130_2f2e);
        assert_eq!(request.server.port, 0x3332);
        assert_eq!(request.shared[31], 83);
        assert_eq!(request.key, [84, 85, 86, 87]);
    }
}
