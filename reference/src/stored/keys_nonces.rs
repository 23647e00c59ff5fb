//! Bodies of Nonces, of every length around those that a version needs.

use super::keys_cases::{LONGEST, NONCE};
use super::records::push_run;
use crate::generator::Generator;
use crate::link::nonce_body;

const VERSIONS: [u8; 5] = [0, 1, 2, 3, 255];
const VERSION_AT: usize = 5;

pub fn push(records: &mut Vec<u8>) {
    let mut generator = Generator::new(0xA8_06);
    for version in VERSIONS {
        for n in 0..=70 {
            let body = generator.bytes(n);
            push_one(records, with_version(body, version));
        }
    }
    for version in [0, 1, 2] {
        let random = std::array::from_fn(|_| generator.byte());
        let time = generator.draw() as u32;
        push_one(records, nonce_body(version, time, random));
    }
    times(records, &mut generator);
    // Each byte says its place.
    for version in VERSIONS {
        push_one(records, with_version((0..80).collect(), version));
    }
    for _ in 0..500 {
        random(records, &mut generator);
    }
}

fn push_one(records: &mut Vec<u8>, body: Vec<u8>) {
    assert!(body.len() <= LONGEST);
    records.push(NONCE);
    push_run(records, &body);
}

/// A body that is too short for a version has none.
fn with_version(mut body: Vec<u8>, version: u8) -> Vec<u8> {
    if let Some(byte) = body.get_mut(VERSION_AT) {
        *byte = version;
    }
    body
}

/// They are printed as whole numbers without a sign.
fn times(records: &mut Vec<u8>, generator: &mut Generator) {
    for time in [0, 1, 255, 256, 0x7fff_ffff, 0x8000_0000, u32::MAX] {
        for version in VERSIONS {
            let random = std::array::from_fn(|_| generator.byte());
            push_one(records, nonce_body(version, time, random));
        }
    }
}

/// Mostly around the two lengths, with any encryption, KeyID and flags; now and
/// then as long as the opening allows, and longer.
fn random(records: &mut Vec<u8>, generator: &mut Generator) {
    let n = match generator.below(25) {
        0 => generator.below(1100),
        1..5 => generator.below(28),
        5..15 => 26 + generator.below(8),
        _ => 56 + generator.below(20),
    };
    let body = generator.bytes(n as usize);
    let version = match generator.below(5) {
        0 => generator.byte(),
        draw => (draw - 1) as u8,
    };
    push_one(records, with_version(body, version));
}
