//! Words before the packets of a padded link, and faults behind them.

use super::link_closing;
use super::link_padded::{after, open, store, words, ANY};
use super::link_sending::Sending;
use super::link_talk::{Talk, OPEN, SETTINGS, SIDES};
use crate::checksum::{CRC32, CRC32C};
use crate::link::packet::{self, HANDSHAKE, NONCE, PING, PONG};

pub fn push(records: &mut Vec<u8>) {
    for side in SIDES {
        let talk = open(side);
        lengths(records, &talk);
        too_many(records, &talk);
        faults(records, &talk);
        sums(records, &talk);
        no_words(records, &talk);
        turns(records, &talk);
        for settings in SETTINGS {
            joined(records, after(OPEN, side, settings));
        }
        closed(records, &talk);
    }
}

const LENGTHS: [u32; 18] = [
    0,
    1,
    3,
    4,
    5,
    15,
    16,
    17,
    0x104,
    0x400,
    1024,
    16_777_214,
    16_777_215,
    16_777_216,
    0x0100_0004,
    0x0400_0000,
    0x8000_0004,
    0xffff_ffff,
];

/// A length behind up to four words, with nothing more, then before a sound
/// front; only a fourth word is seen before it.
pub fn lengths(records: &mut Vec<u8>, talk: &Talk) {
    let front = talk.forged(ANY, &[])[4..12].to_vec();
    for count in 0..=4 {
        for length in LENGTHS {
            let mut bytes = words(count);
            bytes.extend(length.to_le_bytes());
            let mut patient = talk.clone();
            patient.receive(&bytes[..bytes.len() - 1]);
            patient.receive(&bytes);
            patient.receive(&[&bytes[..], &front].concat());
            patient.store(records);
        }
    }
}

/// Four and five words: every beginning that is waited on, then every one
/// that is not.
pub fn too_many(records: &mut Vec<u8>, talk: &Talk) {
    let packet = talk.forged(ANY, b"abcde");
    for count in [4, 5] {
        let bytes = [words(count), packet.clone()].concat();
        let mut patient = talk.clone();
        for n in 0..=16 {
            patient.receive(&bytes[..n]);
        }
        patient.store(records);
        for n in (17..bytes.len()).step_by(3).chain([bytes.len()]) {
            store(records, talk, &bytes[..n]);
        }
    }
    // The fourth has a wrong byte, in each place: a length, mostly too long.
    for place in 0..4 {
        for wrong in [1, 0x10, 0x80] {
            let mut bytes = words(4);
            bytes[12 + place] ^= wrong;
            store(records, talk, &bytes);
        }
    }
}

/// Numbers and types that are refused once 12 bytes are there behind words.
pub fn faults(records: &mut Vec<u8>, talk: &Talk) {
    let (number, checksum) = talk.expected();
    for count in 0..=4 {
        for (off, packet_type) in [(1, ANY), (1, NONCE), (0, NONCE), (0, HANDSHAKE)] {
            let number = number.wrapping_add(off);
            let packet = packet::whole(number, packet_type, b"body.", checksum);
            let bytes = [words(count), packet].concat();
            let mut patient = talk.clone();
            patient.receive(&bytes[..count * 4 + 11]);
            patient.receive(&bytes[..count * 4 + 12]);
            patient.store(records);
            store(records, talk, &bytes);
        }
    }
}

/// The checksum is over the packet: with the words, with the zeros or with the
/// other polynomial it is wrong.
pub fn sums(records: &mut Vec<u8>, talk: &Talk) {
    for size in [4, 5, 6, 7] {
        let sound = talk.forged(ANY, &vec![1; size]);
        let (at, end) = (12 + size, 16 + size);
        for count in 0..=3 {
            let before = words(count);
            let mut sums = vec![CRC32.of(&sound[..at]), 0];
            sums.push(CRC32C.of(&[&before[..], &sound[..at]].concat()));
            sums.push(CRC32C.of(&[&sound[..at], &sound[end..]].concat()));
            for sum in sums {
                let mut bytes = sound.clone();
                bytes[at..end].copy_from_slice(&sum.to_le_bytes());
                store(records, talk, &[&before[..], &bytes].concat());
            }
        }
    }
}

/// Values that are no words, before a sound packet.
pub fn no_words(records: &mut Vec<u8>, talk: &Talk) {
    let packet = talk.forged(ANY, b"");
    for value in [0, 0x0400_0000, 0x0404_0404, 5, 3] {
        for count in 0..=2 {
            let value = u32::to_le_bytes(value).to_vec();
            let bytes = [words(count), value, packet.clone()].concat();
            store(records, talk, &bytes);
        }
    }
    // One byte too few or too many: the words are not found where they are.
    store(records, talk, &[&words(1)[1..], &packet].concat());
    store(records, talk, &[&[0], &words(1)[..], &packet].concat());
}

/// Ping and Pong behind words, in turn and not, of the right size and not.
pub fn turns(records: &mut Vec<u8>, talk: &Talk) {
    for count in 0..=4 {
        for size in [7, 8, 9] {
            let mut talk = talk.clone();
            for packet_type in [PING, PONG] {
                let packet = talk.forged(packet_type, &vec![0; size]);
                store(records, &talk, &[words(count), packet].concat());
            }
            talk.send(&Sending::ping(0));
            let pong = talk.forged(PONG, &vec![0; size]);
            talk.receive(&[words(count), pong].concat());
            for _ in 0..2 {
                let ping = talk.forged(PING, &vec![0; size]);
                talk.receive(&[words(count), ping].concat());
            }
            talk.store(records);
        }
    }
}

/// Packets with all numbers of words between them in one piece, and what the
/// link makes of the rest after each.
pub fn joined(records: &mut Vec<u8>, mut talk: Talk) {
    let (first, checksum) = talk.expected();
    let mut bytes = Vec::new();
    for turn in 0..16 {
        let body = vec![turn as u8; turn / 4 + turn % 4];
        let packet = packet::whole(first.wrapping_add(turn as u32), ANY, &body, checksum);
        bytes.extend(words(turn % 4));
        bytes.extend(&packet);
        bytes.resize(bytes.len() + packet::zeros(packet.len()), 0);
    }
    for count in [3, 4] {
        let mut talk = talk.clone();
        talk.receive_all(&[bytes.clone(), words(count)].concat());
        talk.store(records);
    }
    talk.receive_all(&bytes);
    talk.store(records);
}

/// All calls on links that a fourth word or wrong padding closed.
fn closed(records: &mut Vec<u8>, talk: &Talk) {
    let mut padding = talk.forged(ANY, b"12345");
    *padding.last_mut().expect("a zero") = 9;
    for bytes in [words(4), padding] {
        let mut talk = talk.clone();
        talk.receive(&bytes);
        assert!(talk.is_closed());
        for room in [0, 3, 4, 12, 16] {
            talk.flush(room);
        }
        talk.receive(&words(4));
        link_closing::after(records, talk);
    }
}
