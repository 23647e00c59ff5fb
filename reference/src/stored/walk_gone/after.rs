//! What was freed is nowhere: its ends are unknown, its front number may be
//! asked again, its load and room are given back. The numbering goes on.

use super::sides::around;
use super::{fresh_between, TOP};
use crate::stored::walk_play::{Case, Play};
use crate::table::Side;

pub const CASES: &[Case] = &[
    (7, late_ends),
    (TOP - 3, asked_again),
    (1, whole_load),
    (7, shared_room),
    (1, numbering_goes_on),
    (TOP - 3, numbering_goes_on),
];

/// Both ends of all that was freed, and of one that was not.
fn late_ends(play: &mut Play) {
    for side in Side::BOTH {
        for number in [0, 6] {
            around(play, number);
            let freed = play.of_peer(side, number);
            play.gone(side, [number]);
            freed.iter().for_each(|&entry| play.both_ends(entry));
            play.both_ends(play.entries[1]);
            play.gone(side, [number]);
            play.gone(side.other(), 0..8);
        }
    }
}

/// The same front numbers, accepted once: at the same publisher or another.
fn asked_again(play: &mut Play) {
    for side in Side::BOTH {
        for (number, step) in [(5, 0), (1, 3)] {
            around(play, number);
            let freed = play.of_peer(side, number);
            play.gone(side, [number]);
            for entry in freed {
                let (link, front_number) = entry.front;
                let publisher = (entry.publisher.0 + step) % 8;
                play.ask(link, front_number, publisher);
                play.ask(link, front_number, (publisher + 1) % 8);
                play.reply(entry.publisher);
            }
            play.gone(side.other(), 0..8);
        }
    }
}

/// A publisher with its largest load, all of it with one link: whichever of
/// the two is gone, there is room for as many again.
fn whole_load(play: &mut Play) {
    for (side, number) in [(Side::Publisher, 7), (Side::Front, 0), (Side::Front, 3)] {
        play.fresh_many(17, number, number);
        play.gone(side, [number]);
        play.fresh_many(17, number, number);
        play.gone(side.other(), [number]);
    }
}

/// A full table; a peer is gone and its room is fought for. A publisher's
/// reserve stays its own, a link's requests give room at all publishers.
fn shared_room(play: &mut Play) {
    for (side, number) in [(Side::Publisher, 1), (Side::Front, 2), (Side::Publisher, 5)] {
        play.fill([16, 16, 12, 4, 4, 4, 4, 4], 5);
        play.probe(9);
        play.gone(side, [number]);
        (0..2).for_each(|_| play.probe(9));
        play.fresh_many(10, 10, 3);
        play.probe(11);
        play.gone(side, [number]);
        play.gone(Side::Front, (0..12).rev());
    }
}

/// With some requests, with one and with none, and beside another publisher.
fn numbering_goes_on(play: &mut Play) {
    for publisher in [0, 6] {
        for turn in 0..6 {
            let side = Side::BOTH[turn % 2];
            play.fresh_many(1 + turn % 3, publisher, publisher);
            fresh_between(play, side, 4, publisher);
            play.fresh(2, 3);
            play.gone(side, [publisher, publisher]);
            play.fresh(publisher, publisher);
            play.gone(side.other(), [publisher]);
        }
        play.gone(Side::Publisher, [publisher]);
        play.fresh(1, publisher);
        play.gone(Side::Publisher, 0..8);
    }
}
