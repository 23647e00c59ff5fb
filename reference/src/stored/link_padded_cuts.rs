//! Packets of a padded link in pieces, and zeros that are wrong.

use super::link_padded::{after, open, store, words, ANY};
use super::link_sending::Sending;
use super::link_talk::{Talk, OPEN, SIDES};
use crate::link::packet::{self, PING, PONG};

/// Bodies whose packets end at, one before, two and three behind a multiple of
/// 4, at two places each and one further on.
const SIZES: [usize; 9] = [0, 1, 2, 3, 4, 5, 6, 7, 33];

pub const WRONG: [u8; 3] = [1, 0x80, 255];

pub fn push(records: &mut Vec<u8>) {
    for side in SIDES {
        for count in 0..=3 {
            for size in SIZES {
                let bytes = with_words(&open(side), count, ANY, size);
                every_beginning(records, &open(side), &bytes);
                behind(records, open(side), count, size);
            }
        }
        for count in 0..=3 {
            zeros(records, &open(side), count);
        }
        zeros(records, &after(OPEN, side, (false, true)), 1);
        two_faults(records, &open(side));
        pings(records, &open(side));
        missing(records, &open(side));
    }
}

pub fn with_words(talk: &Talk, count: usize, packet_type: u32, size: usize) -> Vec<u8> {
    let body: Vec<u8> = (1..=size as u8).collect();
    [words(count), talk.forged(packet_type, &body)].concat()
}

/// Every beginning of the bytes: those that the link waits on in one
/// conversation, the others in one each.
pub fn every_beginning(records: &mut Vec<u8>, talk: &Talk, bytes: &[u8]) {
    let mut patient = talk.clone();
    for n in 0..=bytes.len() {
        if talk.would_wait(&bytes[..n]) {
            patient.receive(&bytes[..n]);
        } else {
            store(records, talk, &bytes[..n]);
        }
    }
    patient.store(records);
}

/// Bytes behind a packet, which are left for the next call: zeros and words as
/// well.
pub fn behind(records: &mut Vec<u8>, mut talk: Talk, count: usize, size: usize) {
    for bytes in [&[0; 4][..], &[7], &[4, 0, 0, 0], &[0, 4], &[255; 3]] {
        let packet = with_words(&talk, count, ANY, size);
        talk.receive(&[&packet[..], bytes].concat());
    }
    talk.store(records);
}

/// Each zero something else, and together; seen once the last of them is there.
pub fn zeros(records: &mut Vec<u8>, talk: &Talk, count: usize) {
    for size in [5, 6, 7] {
        let sound = with_words(talk, count, ANY, size);
        let first = 4 * count + 16 + size;
        for place in first..sound.len() {
            for wrong in WRONG {
                let mut bytes = sound.clone();
                bytes[place] = wrong;
                let mut patient = talk.clone();
                for n in first..=bytes.len() {
                    patient.receive(&bytes[..n]);
                }
                patient.store(records);
            }
        }
        let mut bytes = sound.clone();
        bytes[first..].fill(4);
        store(records, talk, &[&bytes[..], &[0; 5]].concat());
    }
}

/// Wrong zeros under a wrong checksum: nothing is said before both are there.
pub fn two_faults(records: &mut Vec<u8>, talk: &Talk) {
    for size in [4, 5, 6, 7] {
        for count in 0..=4 {
            let sound = with_words(talk, count, ANY, size);
            let first = 4 * count + 16 + size;
            for place in [first - 5, first - 1] {
                let mut bytes = sound.clone();
                bytes[place] ^= 0x40;
                every_ending(records, talk, &bytes, first);
                bytes[first..].fill(1);
                every_ending(records, talk, &bytes, first);
            }
        }
    }
}

/// The bytes from shortly before `from` on, as they come in.
fn every_ending(records: &mut Vec<u8>, talk: &Talk, bytes: &[u8], from: usize) {
    let mut patient = talk.clone();
    for n in from - 1..=bytes.len() {
        patient.receive(&bytes[..n]);
    }
    patient.store(records);
}

/// Pings and Pongs of a wrong size, in turn and not, with zeros right and
/// wrong.
pub fn pings(records: &mut Vec<u8>, talk: &Talk) {
    for size in [0, 1, 5, 6, 7, 9, 10, 11, 13] {
        for packet_type in [PING, PONG] {
            for ping_first in [false, true] {
                let mut talk = talk.clone();
                if ping_first {
                    talk.receive_forged(PING, &[6; 8]);
                    talk.send(&Sending::ping(6));
                }
                let mut bytes = with_words(&talk, 1, packet_type, size);
                store(records, &talk, &bytes);
                if packet::zeros(16 + size) > 0 {
                    *bytes.last_mut().expect("a zero") = 1;
                    store(records, &talk, &bytes);
                }
            }
        }
    }
}

/// The next packet where zeros should be: its length's first byte is not 0.
pub fn missing(records: &mut Vec<u8>, talk: &Talk) {
    for size in SIZES {
        let (number, checksum) = talk.expected();
        let body = vec![3; size];
        let one = packet::whole(number, ANY, &body, checksum);
        let two = packet::whole(number.wrapping_add(1), ANY, &body, checksum);
        for count in 0..=1 {
            let mut talk = talk.clone();
            talk.receive_all(&[&one, &words(count)[..], &two].concat());
            talk.store(records);
        }
        // And more of them than there should be.
        let mut talk = talk.clone();
        let zeros = vec![0; packet::zeros(one.len()) + 4];
        talk.receive_all(&[&one, &zeros[..], &two].concat());
        talk.store(records);
    }
}
