//! Derivations at random: mostly sound, with short keys, so that the files stay
//! small.

use super::keys_cases::LONGEST;
use super::keys_request::{self, draw, size, Lent};
use super::link_talk::SIDES;
use crate::generator::Generator;

const COUNT: usize = 1000;

pub fn push(records: &mut Vec<u8>) {
    let mut generator = Generator::new(0xA8_04);
    for _ in 0..COUNT {
        let version = version(&mut generator);
        let sender = generator.pick(&SIDES);
        let length = length(&mut generator);
        let key = generator.bytes(length);
        let request = draw(&mut generator, version, sender, &key);
        let lent = Lent {
            room: room(&mut generator, size(version, length)),
            filling: generator.byte(),
        };
        keys_request::push(records, &request, lent);
    }
}

fn version(generator: &mut Generator) -> u8 {
    match generator.below(20) {
        0 => generator.byte(),
        draw => (draw % 3) as u8,
    }
}

fn length(generator: &mut Generator) -> usize {
    let end = match generator.below(100) {
        0 => 5000,
        1..10 => 300,
        10..30 => 80,
        _ => 41,
    };
    generator.below(end) as usize
}

fn room(generator: &mut Generator, size: usize) -> usize {
    let any = generator.below(30) as usize;
    match generator.below(12) {
        0 => size - 1 - any,
        1 => generator.below(2 * size as u64) as usize,
        2 => LONGEST,
        3..6 => size,
        _ => size + any,
    }
}
