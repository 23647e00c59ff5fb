//! Derivations with keys and buffers on either side of every length that makes
//! a difference.

use super::keys_request::{self, draw, size, Lent};
use super::link_talk::SIDES;
use crate::generator::Generator;
use crate::keys::{printed, LONGEST_KEY};
use crate::message::Side;

const VERSIONS: [u8; 6] = [0, 1, 2, 3, 4, 255];

const SHORT: [usize; 15] = [0, 1, 3, 4, 31, 32, 33, 63, 64, 65, 66, 127, 128, 129, 130];
const LONG: [usize; 4] = [4095, LONGEST_KEY, LONGEST_KEY + 1, 5000];

pub fn push(records: &mut Vec<u8>) {
    let mut generator = Generator::new(0xA8_02);
    for version in VERSIONS {
        for sender in SIDES {
            for key in SHORT {
                let rooms = rooms(&mut generator, size(version, key));
                with_rooms(records, &mut generator, version, sender, key, &rooms);
            }
        }
        for (turn, key) in LONG.into_iter().enumerate() {
            long(records, &mut generator, version, key, turn);
        }
    }
    every_end_of_a_block(records, &mut generator);
}

/// Exactly the size, one less, none, and more.
fn rooms(generator: &mut Generator, size: usize) -> [usize; 4] {
    let more = size + 1 + generator.below(70) as usize;
    [size, size - 1, 0, more]
}

fn with_rooms(
    records: &mut Vec<u8>,
    generator: &mut Generator,
    version: u8,
    sender: Side,
    key: usize,
    rooms: &[usize],
) {
    for room in rooms {
        let key = generator.bytes(key);
        let request = draw(generator, version, sender, &key);
        let (room, filling) = (*room, generator.byte());
        keys_request::push(records, &request, Lent { room, filling });
    }
}

/// A long key is stored anew with every buffer, so only the longest that is
/// taken comes with all of them, and those that are refused with two.
fn long(records: &mut Vec<u8>, generator: &mut Generator, version: u8, key: usize, turn: usize) {
    let [exact, less, none, more] = rooms(generator, size(version, key));
    let is_taken = version <= 2 && key <= LONGEST_KEY;
    let (by_client, by_server) = match (is_taken, turn % 2) {
        (true, 0) => (vec![exact, less], vec![none, more]),
        (true, _) => (vec![exact, less, none, more], vec![exact, less, none, more]),
        (false, 0) => (vec![exact], vec![none]),
        (false, _) => (vec![more], vec![less]),
    };
    with_rooms(records, generator, version, Side::Client, key, &by_client);
    with_rooms(records, generator, version, Side::Server, key, &by_server);
}

/// The three digests of a derivation are over messages of three lengths, each
/// of which comes by the end of a block here.
fn every_end_of_a_block(records: &mut Vec<u8>, generator: &mut Generator) {
    for version in printed::VERSIONS {
        for key in 0..=67 {
            let sender = SIDES[key % 2];
            let room = size(version, key);
            with_rooms(records, generator, version, sender, key, &[room]);
        }
    }
}
