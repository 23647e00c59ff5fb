//! Links that are set up with a key: every setting, keys on either side of
//! every limit, and 36 before 30.

use super::keys_cases::{LONGEST, SET_UP};
use super::link_talk::SIDES;
use super::records::push_run;
use crate::generator::Generator;
use crate::keys::LONGEST_KEY;
use crate::link::{Cipher, Settings};
use crate::message::Side;

const LOWEST: [u8; 8] = [0, 1, 2, 3, 4, 127, 128, 255];
const SHORT: [usize; 13] = [0, 1, 2, 3, 4, 5, 16, 28, 30, 31, 32, 33, 64];
const LONG: [usize; 5] = [4095, LONGEST_KEY, LONGEST_KEY + 1, 5000, LONGEST];

pub fn push(records: &mut Vec<u8>) {
    let mut generator = Generator::new(0xA8_05);
    every_setting(records, &mut generator);
    for (turn, side) in SIDES.into_iter().enumerate() {
        lengths(records, &mut generator, side);
        nearly_zero(records, &mut generator, side);
        for key in LONG {
            // A fault of the settings at one side only: the keys are long.
            let lowest_version = 2 + turn as u8;
            let key = generator.bytes(key);
            push_one(records, with_lowest(side, lowest_version), &key);
        }
    }
    long_with_zeros_in_front(records);
    for _ in 0..150 {
        random(records, &mut generator);
    }
}

fn push_one(records: &mut Vec<u8>, settings: Settings, key: &[u8]) {
    assert!(key.len() <= LONGEST);
    records.push(SET_UP);
    records.push((settings.side == Side::Server).into());
    records.push(settings.crc32c_allowed.into());
    records.push(settings.lowest_version);
    records.push(settings.padded.into());
    push_run(records, key);
}

fn with_lowest(side: Side, lowest_version: u8) -> Settings {
    Settings {
        lowest_version,
        ..Settings::new(side, true)
    }
}

/// With a key that a link takes, a short one, and one of zeros.
fn every_setting(records: &mut Vec<u8>, generator: &mut Generator) {
    for side in SIDES {
        for crc32c_allowed in [false, true] {
            for lowest_version in LOWEST {
                for padded in [false, true] {
                    let settings = Settings {
                        side,
                        crc32c_allowed,
                        lowest_version,
                        padded,
                        cipher: Cipher::ClearOnly,
                    };
                    push_one(records, settings, &generator.bytes(32));
                    push_one(records, settings, &generator.bytes(31));
                    push_one(records, settings, &[0; 32]);
                }
            }
        }
    }
}

/// A short key of zeros has two faults; a bad setting is a third.
fn lengths(records: &mut Vec<u8>, generator: &mut Generator, side: Side) {
    for length in SHORT {
        for lowest_version in [0, 2, 3] {
            let settings = with_lowest(side, lowest_version);
            push_one(records, settings, &generator.bytes(length));
            push_one(records, settings, &vec![0; length]);
        }
    }
}

/// One bit in front is enough, and none behind makes up for it.
fn nearly_zero(records: &mut Vec<u8>, generator: &mut Generator, side: Side) {
    for lowest_version in [0, 3] {
        let settings = with_lowest(side, lowest_version);
        for bit in 0..48 {
            let mut key = [0; 32];
            key[bit / 8] = 1 << (bit % 8);
            push_one(records, settings, &key);
        }
        for nonzero in 0..16 {
            let mut key = generator.bytes(32);
            for (place, byte) in key[..4].iter_mut().enumerate() {
                *byte = if nonzero >> place & 1 == 1 {
                    *byte | 1
                } else {
                    0
                };
            }
            push_one(records, settings, &key);
        }
    }
    for place in 1..=28 {
        let mut key = generator.bytes(32);
        key[place..place + 4].fill(0);
        push_one(records, with_lowest(side, 0), &key);
    }
}

fn long_with_zeros_in_front(records: &mut Vec<u8>) {
    for length in [LONGEST_KEY, LONGEST_KEY + 1] {
        let mut key = vec![0; length];
        for (fourth, lowest_version) in [(0, 0), (0, 3), (1, 0), (1, 3)] {
            key[3] = fourth;
            push_one(records, with_lowest(Side::Client, lowest_version), &key);
        }
    }
}

fn random(records: &mut Vec<u8>, generator: &mut Generator) {
    let settings = Settings {
        side: generator.pick(&SIDES),
        crc32c_allowed: generator.pick(&[false, true]),
        lowest_version: generator.below(4) as u8,
        padded: generator.pick(&[false, true]),
        cipher: Cipher::ClearOnly,
    };
    let length = 28 + generator.below(40) as usize;
    let mut key = generator.bytes(length);
    for byte in &mut key[..4] {
        *byte *= generator.pick(&[0, 1]);
    }
    push_one(records, settings, &key);
}
