//! Derivations that are refused, for one reason and for several at once: of 36,
//! 30 and 16 the earlier one is given.

use super::keys_request::{self, draw, size, Lent};
use super::link_talk::SIDES;
use crate::generator::Generator;
use crate::keys::{printed, LONGEST_KEY};

const TOO_NEW: [u8; 4] = [3, 4, 128, 255];

pub fn push(records: &mut Vec<u8>) {
    let mut generator = Generator::new(0xA8_03);
    every_set_of_faults(records, &mut generator);
    every_version(records, &mut generator);
    every_room(records, &mut generator);
    room_for_another_version(records, &mut generator);
    zeros_in_front(records, &mut generator);
}

fn push_one(
    records: &mut Vec<u8>,
    generator: &mut Generator,
    version: u8,
    key: &[u8],
    room: usize,
) {
    let sender = generator.pick(&SIDES);
    let request = draw(generator, version, sender, key);
    let filling = generator.byte();
    keys_request::push(records, &request, Lent { room, filling });
}

/// A key one byte too long, a version above 2, a buffer one byte too small.
fn every_set_of_faults(records: &mut Vec<u8>, generator: &mut Generator) {
    for faults in 0..8 {
        let length = if faults & 1 == 0 { 40 } else { LONGEST_KEY + 1 };
        let versions: &[u8] = if faults & 2 == 0 {
            &printed::VERSIONS
        } else {
            &TOO_NEW
        };
        for version in versions {
            let less = usize::from(faults & 4 != 0);
            let key = generator.bytes(length);
            let room = size(*version, length) - less;
            push_one(records, generator, *version, &key, room);
        }
    }
}

fn every_version(records: &mut Vec<u8>, generator: &mut Generator) {
    for version in 0..=255 {
        let key = generator.bytes(5);
        let room = generator.pick(&[0, 89, 130]);
        push_one(records, generator, version, &key, room);
    }
}

/// Nothing is written up to one byte before the size.
fn every_room(records: &mut Vec<u8>, generator: &mut Generator) {
    for version in printed::VERSIONS {
        for room in 0..=size(version, 2) + 2 {
            let key = generator.bytes(2);
            push_one(records, generator, version, &key, room);
        }
    }
}

/// The shared bytes make a difference of 32.
fn room_for_another_version(records: &mut Vec<u8>, generator: &mut Generator) {
    for version in [0, 1, 2, 3] {
        for other in [1, 2] {
            for length in [0, 4, 32, 64] {
                let key = generator.bytes(length);
                push_one(records, generator, version, &key, size(other, length));
            }
        }
    }
}

/// Only links refuse these.
fn zeros_in_front(records: &mut Vec<u8>, generator: &mut Generator) {
    for version in printed::VERSIONS {
        for length in [1, 3, 4, 5, 31, 32, 40] {
            let mut key = generator.bytes(length);
            key[..length.min(4)].fill(0);
            push_one(records, generator, version, &key, 200);
            push_one(records, generator, version, &vec![0; length], 200);
        }
    }
}
