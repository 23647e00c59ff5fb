//! Lowest versions: links set up with each of them, Nonces on either side of
//! it, and set-ups that are refused.

use super::link_bodies::{nonce, sized, store_answered, store_nonce};
use super::link_closing;
use super::link_openings;
use super::link_sending::Sending;
use super::link_talk::{receiving, Talk, OPEN, SETTINGS, SIDES, TIME};
use super::records::other;
use crate::generator::Generator;
use crate::link::packet::{self, NONCE, PING};
use crate::link::Settings;
use crate::message::Side;

const LOWEST: [u8; 3] = [0, 1, 2];
const TOO_HIGH: [u8; 5] = [3, 4, 127, 128, 255];

pub fn push(records: &mut Vec<u8>) {
    // Its own stream: what comes before and behind does not depend on it.
    let mut generator = Generator::new(0xA11);
    for side in SIDES {
        for lowest in LOWEST {
            sizes(records, &mut generator, side, lowest);
            after_refused(records, side, lowest);
        }
        for lowest in [1, 2] {
            faults_together(records, side, lowest);
            faults_around(records, side, lowest);
            clocks(records, side, lowest);
            closed(records, side, lowest);
        }
        refused(records, side);
        pairs(records, side);
    }
    for _ in 0..300 {
        random(records, &mut generator);
    }
    for side in SIDES {
        not_inherited(records, side);
    }
}

fn with_lowest(side: Side, crc32c_allowed: bool, lowest_version: u8) -> Settings {
    Settings {
        lowest_version,
        ..Settings::new(side, crc32c_allowed)
    }
}

/// A link with this lowest version, and a peer that has none.
fn talk(side: Side, lowest: u8) -> Talk {
    let peer = Settings::new(other(side), true);
    Talk::set_up(with_lowest(side, true, lowest), peer)
}

/// A short body is seen before a low version, and how much is short depends
/// on the version.
fn sizes(records: &mut Vec<u8>, generator: &mut Generator, side: Side, lowest: u8) {
    for version in [0, 1, 2, 3, 255] {
        for size in [27, 28, 59, 60, 61] {
            let body = sized(nonce(0, version, TIME), size, generator);
            store_answered(records, talk(side, lowest), &body);
        }
    }
}

/// Every set of the faults of a Nonce, of which the first in order is given.
/// A version cannot be too low and beyond the offer at once; beyond a server's
/// offer is none.
fn faults_together(records: &mut Vec<u8>, side: Side, lowest: u8) {
    for version in [lowest - 1, lowest, 3] {
        for encryption in [0, 1, 2] {
            for time in [TIME, TIME - 31, TIME + 31] {
                let body = nonce(encryption, version, time);
                let shortest = if version < 2 { 28 } else { 60 };
                store_answered(records, talk(side, lowest), &body[..shortest - 1]);
                store_answered(records, talk(side, lowest), &body);
            }
        }
    }
}

/// A low version in a packet that has a fault before its body is looked at.
fn faults_around(records: &mut Vec<u8>, side: Side, lowest: u8) {
    let mut talk = talk(side, lowest);
    talk.open_until(receiving(side)[0]);
    let body = nonce(0, lowest - 1, TIME);
    let mut wrong_sum = talk.forged(NONCE, &body);
    wrong_sum[75] ^= 1;
    let (number, checksum) = talk.expected();
    let packets = [
        packet::whole(number, NONCE, &[&body[..], &[0; 948]].concat(), checksum),
        packet::whole(number ^ 1, NONCE, &body, checksum),
        packet::whole(number, PING, &body, checksum),
        wrong_sum,
        talk.forged(NONCE, &body)[..75].to_vec(),
        [&talk.forged(NONCE, &body)[..], b"behind"].concat(),
    ];
    for packet in packets {
        let mut talk = talk.clone();
        talk.receive(&packet);
        talk.store(records);
    }
}

/// On either side of 30 seconds, and on either side of the lowest version.
fn clocks(records: &mut Vec<u8>, side: Side, lowest: u8) {
    for far in [-30, 30, -31, 31] {
        for version in [lowest - 1, lowest] {
            let body = nonce(0, version, TIME.wrapping_add_signed(far));
            store_answered(records, talk(side, lowest), &body);
        }
    }
}

fn closed(records: &mut Vec<u8>, side: Side, lowest: u8) {
    for version in 0..lowest {
        let mut talk = talk(side, lowest);
        talk.open_until(receiving(side)[0]);
        talk.receive_forged(NONCE, &nonce(0, version, TIME));
        assert!(talk.is_closed());
        link_closing::after(records, talk);
    }
}

/// Every set-up that is refused, while a link of this side is the newest.
fn refused(records: &mut Vec<u8>, side: Side) {
    for lowest in TOO_HIGH {
        for refused_side in SIDES {
            for crc32c_allowed in [false, true] {
                refused_throughout(
                    records,
                    side,
                    with_lowest(refused_side, crc32c_allowed, lowest),
                );
            }
        }
    }
}

/// Refused again and again from the link's first moment until it is closed;
/// between, the link goes on. It has another setting for CRC-32C than what was
/// refused, so that its checksums would show if it had taken that over.
fn refused_throughout(records: &mut Vec<u8>, side: Side, refused: Settings) {
    let ours = Settings::new(side, !refused.crc32c_allowed);
    let mut talk = Talk::set_up(ours, Settings::new(other(side), true));
    for packets in 0..=OPEN {
        talk.open_until(packets);
        talk.refused_set_up(refused);
    }
    talk.send(&Sending::ping(1));
    talk.refused_set_up(refused);
    talk.pass(other(side), &Sending::ping(2));
    talk.refused_set_up(refused);
    talk.receive(&[15, 0, 0, 0]);
    talk.refused_set_up(refused);
    talk.send_in(24, &Sending::pong());
    talk.store(records);
}

/// The lowest version that was refused does not become the link's.
fn after_refused(records: &mut Vec<u8>, side: Side, lowest: u8) {
    for version in LOWEST {
        let mut talk = talk(side, lowest);
        talk.refused_set_up(with_lowest(side, true, 3));
        store_answered(records, talk, &nonce(0, version, TIME));
    }
}

/// A link with nothing said takes an old version, though the link before it
/// did not.
fn not_inherited(records: &mut Vec<u8>, side: Side) {
    let body = nonce(0, 0, TIME);
    store_answered(records, talk(side, 2), &body);
    store_nonce(records, side, &body);
}

/// Two links of ours take each other, whatever their lowest versions.
fn pairs(records: &mut Vec<u8>, side: Side) {
    for (crc32c_ours, crc32c_theirs) in SETTINGS {
        for ours in LOWEST {
            for theirs in LOWEST {
                let ours = with_lowest(side, crc32c_ours, ours);
                let theirs = with_lowest(other(side), crc32c_theirs, theirs);
                link_openings::whole(records, Talk::set_up(ours, theirs));
            }
        }
    }
}

/// Any Nonce; if the link takes it, the opening goes to its end.
fn random(records: &mut Vec<u8>, generator: &mut Generator) {
    let side = generator.pick(&SIDES);
    let crc32c_allowed = generator.below(2) == 0;
    let ours = with_lowest(side, crc32c_allowed, generator.pick(&LOWEST));
    let mut talk = Talk::set_up(ours, Settings::new(other(side), true));
    let packets = receiving(side)[0];
    talk.open_until(packets);
    talk.receive_forged(NONCE, &random_nonce(generator));
    if !talk.is_closed() {
        talk.open_forged(packets + 1, generator.below(2) == 0);
        talk.receive_forged(PING, &generator.bytes(8));
    }
    talk.store(records);
}

/// Mostly with no more than one fault; now and then some of its first bytes
/// are changed.
fn random_nonce(generator: &mut Generator) -> Vec<u8> {
    let version = match generator.below(5) {
        0 => generator.byte(),
        _ => generator.below(4) as u8,
    };
    let encryption = match generator.below(6) {
        0 => generator.pick(&[1, 2, 3, 255]),
        _ => 0,
    };
    let time = match generator.below(8) {
        0 => generator.draw() as u32,
        1 => generator.pick(&[TIME - 31, TIME + 31]),
        _ => TIME - 30 + generator.below(61) as u32,
    };
    let size = match generator.below(6) {
        0 => generator.pick(&[0, 27, 28, 59, 61, 100]),
        _ => 60,
    };
    let mut body = sized(nonce(encryption, version, time), size, generator);
    if size > 0 && generator.below(4) == 0 {
        for _ in 0..=generator.below(3) {
            body[generator.below(12) as usize] = generator.byte();
        }
    }
    body
}
