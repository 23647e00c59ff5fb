//! Links set at random: conversations with peers that may take them or not, and
//! Nonces of no peer.

use super::link_bodies::sized;
use super::link_ciphered::{their_nonce, CIPHERS, KEY, KEY_ID, OTHER_KEY, OTHER_KEY_ID, POINT};
use super::link_ciphered_nonces::answered;
use super::link_padded_random::{busy, flushes};
use super::link_talk::{Talk, OPEN, SIDES, TIME};
use super::records::other;
use crate::generator::Generator;
use crate::link::{Cipher, Settings};
use crate::message::Side;

pub fn push(records: &mut Vec<u8>) {
    let mut generator = Generator::new(0xA9);
    for _ in 0..240 {
        traffic(records, &mut generator);
    }
    for _ in 0..500 {
        any_nonce(records, &mut generator);
    }
}

/// Mostly ciphered ones.
fn drawn(generator: &mut Generator, side: Side) -> Settings {
    Settings {
        side,
        crc32c_allowed: generator.below(2) == 0,
        lowest_version: generator.below(3) as u8,
        padded: generator.below(6) == 0,
        cipher: match generator.below(6) {
            0 => Cipher::ClearOnly,
            1 | 2 => Cipher::CipherOnly,
            _ => Cipher::Either,
        },
    }
}

/// A clear link may do without.
fn key(generator: &mut Generator, cipher: Cipher) -> &'static [u8] {
    match generator.below(12) {
        0 => &OTHER_KEY,
        1..=6 if cipher == Cipher::ClearOnly => &[],
        _ => &KEY,
    }
}

/// What the peer writes comes in lumps that have nothing to do with its
/// packets.
fn traffic(records: &mut Vec<u8>, generator: &mut Generator) {
    let side = generator.pick(&SIDES);
    let (ours, theirs) = (drawn(generator, side), drawn(generator, other(side)));
    let keys = (key(generator, ours.cipher), key(generator, theirs.cipher));
    let point = &POINT[..generator.below(34) as usize];
    let mut talk = Talk::with_keys((ours, keys.0), (theirs, keys.1)).with_point(point);
    let mut stream = Vec::new();
    for _ in 0..OPEN {
        let both = talk.try_next();
        talk.tell();
        if !both {
            return talk.store(records);
        }
        flushes(generator, &mut talk, &mut stream);
    }
    busy(records, generator, talk, stream);
}

/// Mostly with no more than one fault; now and then some of its first bytes
/// are changed.
fn any_nonce(records: &mut Vec<u8>, generator: &mut Generator) {
    let side = generator.pick(&SIDES);
    let mut ours = drawn(generator, side);
    ours.cipher = generator.pick(&CIPHERS);
    let theirs = Settings::new(other(side), true);
    let talk = Talk::with_keys((ours, &KEY), (theirs, &[]));
    let point = generator.below(34) as usize;
    answered(records, talk, &POINT[..point], &random_body(generator));
}

fn random_body(generator: &mut Generator) -> Vec<u8> {
    let version = match generator.below(6) {
        0 => generator.byte(),
        _ => generator.pick(&[0, 1, 2, 2, 2, 2, 3]),
    };
    let encryption = match generator.below(6) {
        0 => generator.byte(),
        _ => generator.pick(&[0, 1, 1, 1, 2]),
    };
    let time = match generator.below(8) {
        0 => generator.pick(&[TIME - 31, TIME + 31, 0, u32::MAX]),
        _ => TIME - 30 + generator.below(61) as u32,
    };
    let key_id = match generator.below(5) {
        0 => generator.pick(&[OTHER_KEY_ID, [0; 4]]),
        _ => KEY_ID,
    };
    let size = match generator.below(8) {
        0 => generator.pick(&[0, 27, 28, 59, 61, 100]),
        _ => 60,
    };
    let mut body = sized(
        their_nonce(encryption, version, time, key_id),
        size,
        generator,
    );
    if size > 0 && generator.below(5) == 0 {
        body[generator.below(12) as usize] ^= 1 << generator.below(8);
    }
    body
}
