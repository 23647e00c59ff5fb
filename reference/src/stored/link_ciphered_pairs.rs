//! Whole conversations of two links, each set in every way, which take each
//! other or do not; from the opening on they tell at each point.

use super::link_ciphered::{set, CIPHERS, KEY, OTHER_KEY, POINT};
use super::link_padded::{converse, flush, ENOUGH};
use super::link_talk::{Talk, OPEN, SETTINGS, SIDES};
use super::records::other;
use crate::link::{Cipher, Settings};
use crate::message::Side;

pub fn push(records: &mut Vec<u8>) {
    for side in SIDES {
        for ours in CIPHERS {
            for theirs in CIPHERS {
                pair(records, side, ours, theirs);
            }
        }
        for allowed in SETTINGS {
            for lowest in 0..=2 {
                with_settings(records, side, allowed, lowest);
            }
        }
    }
}

/// With one key and with two; padded by hand at both ends, at neither and at
/// one, which on ciphered links makes no difference.
fn pair(records: &mut Vec<u8>, side: Side, ours: Cipher, theirs: Cipher) {
    let may_be_clear = [ours, theirs].contains(&Cipher::ClearOnly);
    for their_key in [&KEY, &OTHER_KEY] {
        for (padded, theirs_padded) in [(false, false), (true, true), (true, false), (false, true)]
        {
            if may_be_clear && padded != theirs_padded {
                continue;
            }
            let ours = with_padding(set(side, ours), padded);
            let theirs = with_padding(set(other(side), theirs), theirs_padded);
            let talk = Talk::with_keys((ours, &KEY), (theirs, their_key)).with_point(&POINT[..32]);
            for flushers in [&[][..], &SIDES] {
                whole(records, talk.clone(), flushers);
            }
        }
    }
}

fn with_padding(settings: Settings, padded: bool) -> Settings {
    Settings { padded, ..settings }
}

/// Ciphered links whose checksums and lowest versions are set in every way.
fn with_settings(records: &mut Vec<u8>, side: Side, allowed: (bool, bool), lowest: u8) {
    let settings = |side, crc32c_allowed, lowest_version| Settings {
        crc32c_allowed,
        lowest_version,
        ..set(side, Cipher::CipherOnly)
    };
    let ours = settings(side, allowed.0, lowest);
    let theirs = settings(other(side), allowed.1, 2 - lowest);
    let talk = Talk::with_keys((ours, &KEY), (theirs, &KEY)).with_point(POINT);
    whole(records, talk, &SIDES);
}

fn whole(records: &mut Vec<u8>, mut talk: Talk, flushers: &[Side]) {
    talk.tell();
    let mut before = Vec::new();
    for _ in 0..OPEN {
        let both = talk.try_next();
        talk.tell();
        if !both {
            talk.flush(ENOUGH);
            return talk.store(records);
        }
        flush(&mut talk, flushers, &mut before);
    }
    converse(&mut talk, flushers, before);
    talk.tell();
    talk.store(records);
}
