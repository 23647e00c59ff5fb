//! After the opening a ciphered link is a padded one: words, zeros, cuts and
//! flushes. The same link gone clear is not.

use super::link_ciphered::{open, set, talk, KEY};
use super::link_padded::{message, store, words, ANY, ENOUGH};
use super::link_padded_cuts::{self as cuts, every_beginning, with_words};
use super::link_padded_words as padded_words;
use super::link_sending::Sending;
use super::link_talk::{Talk, OPEN, SIDES};
use super::records::other;
use crate::link::{Cipher, Settings};
use crate::message::Side;

pub fn push(records: &mut Vec<u8>) {
    for side in SIDES {
        let talk = open(side);
        padded_words::lengths(records, &talk);
        padded_words::too_many(records, &talk);
        padded_words::faults(records, &talk);
        padded_words::turns(records, &talk);
        padded_words::joined(records, open(side));
        cuts::zeros(records, &talk, 1);
        cuts::two_faults(records, &talk);
        cuts::pings(records, &talk);
        cuts::missing(records, &talk);
        for count in [0, 3] {
            for size in [0, 1, 2, 3, 33] {
                every_beginning(records, &talk, &with_words(&talk, count, ANY, size));
                cuts::behind(records, open(side), count, size);
            }
        }
        flush_stages(records, side);
        flush_sizes(records, side);
        closed(records, side);
        clear(records, side);
    }
}

/// At every stage of the opening, with every room.
fn flush_stages(records: &mut Vec<u8>, side: Side) {
    for cipher in [Cipher::CipherOnly, Cipher::Either] {
        for packets in 0..=OPEN {
            let mut talk = talk(side, cipher);
            talk.open_until(packets);
            for room in 0..=ENOUGH {
                talk.flush(room);
            }
            talk.tell();
            talk.open_until(OPEN);
            talk.flush(ENOUGH);
            talk.store(records);
        }
    }
}

/// After packets of every size, in rooms that do and do not suffice.
fn flush_sizes(records: &mut Vec<u8>, side: Side) {
    let mut talk = open(side);
    for room in [0, 3, 4, 7, 8, 11, 12, 16, 40] {
        for size in 8..24 {
            talk.send(&message(side, size));
            talk.flush(room);
            if size % 3 == 0 {
                talk.flush(ENOUGH);
            }
        }
    }
    talk.store(records);
    for size in 8..16 {
        let mut talk = open(side);
        talk.send_in(16 + size, &message(side, size));
        talk.send_in((16 + size).next_multiple_of(4), &message(side, size));
        talk.flush(ENOUGH);
        talk.store(records);
    }
}

/// A closed link tells what it was.
fn closed(records: &mut Vec<u8>, side: Side) {
    for bytes in [words(4), vec![15, 0, 0, 0]] {
        let mut talk = open(side);
        talk.send(&message(side, 9));
        talk.receive(&bytes);
        talk.tell();
        for room in [0, ENOUGH] {
            talk.flush(room);
        }
        talk.send_in(40, &Sending::ping(1));
        talk.tell();
        talk.store(records);
    }
}

/// A link that may go ciphered, with a key, and a peer that may not: no zeros
/// behind packets, no words before them, and flushes that write nothing.
fn clear(records: &mut Vec<u8>, side: Side) {
    let theirs = Settings::new(other(side), true);
    let mut talk = Talk::with_keys((set(side, Cipher::Either), &KEY), (theirs, &[]));
    for packets in 0..=OPEN {
        talk.open_until(packets);
        talk.tell();
        talk.flush(ENOUGH);
    }
    for count in 1..=4 {
        let packet = with_words(&talk, count, ANY, 5);
        store(records, &talk, &words(count));
        store(records, &talk, &packet);
    }
    every_beginning(records, &talk, &with_words(&talk, 0, ANY, 5));
    for size in 8..24 {
        talk.send(&message(side, size));
        talk.flush(0);
        talk.receive_forged(ANY, &vec![1; size]);
    }
    talk.store(records);
}
