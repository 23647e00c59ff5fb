//! Peers with all that the table holds, and peers with none.

use super::TOP;
use crate::stored::walk_play::{Case, Play};
use crate::table::Side;

pub const CASES: &[Case] = &[
    (7, none_and_twice),
    (TOP - 3, eight_publishers),
    (1, all_with_link_0),
    (TOP - 3, all_with_link_31),
    (7, every_pair),
];

/// With no requests at all, beside others' requests, and again at once.
fn none_and_twice(play: &mut Play) {
    for side in Side::BOTH {
        play.gone(side, 0..8);
        for (own, other) in [(0, 0), (2, 5), (7, 7), (4, 1)] {
            play.fresh_many(2, other, own);
            play.fresh(own, other);
            play.fresh(own, 3);
            play.gone(side, [6, own, own, 6]);
            play.gone(side.other(), [6, own, own, other, other]);
            play.gone(side, [own, other, 3]);
        }
        play.gone(side.other(), 0..8);
    }
}

/// A full table goes with its publishers; it can be filled at once again.
fn eight_publishers(play: &mut Play) {
    play.fill([8; 8], 9);
    play.gone(Side::Publisher, 0..8);
    play.fill([16, 4, 12, 4, 4, 4, 4, 16], 32);
    play.gone(Side::Publisher, [7, 3, 0, 4, 6, 1, 2, 5]);
    play.gone(Side::Front, [0, 31]);
}

/// The link's number is a publisher's, too.
fn all_with_link_0(play: &mut Play) {
    all_with(play, 0, [8; 8]);
}

fn all_with_link_31(play: &mut Play) {
    all_with(play, 31, [4, 16, 4, 16, 12, 4, 4, 4]);
}

/// A full table goes with one link.
fn all_with(play: &mut Play, link: u8, loads: [usize; 8]) {
    for (publisher, load) in (0..8).zip(loads) {
        play.fresh_many(load, link, publisher);
    }
    play.fresh(link, 2);
    play.gone(Side::Front, [link, link]);
    play.gone(Side::Publisher, 0..8);
    (0..8).for_each(|publisher| play.fresh(publisher, publisher));
}

/// Each of eight links with each publisher. So every list is one shorter with
/// each peer of the other side that has gone before.
fn every_pair(play: &mut Play) {
    for first_gone in Side::BOTH {
        for step in 0..8 {
            (0..8).for_each(|link| play.fresh(link, (link + step) % 8));
        }
        for number in [3, 4, 0, 7, 1, 6, 2, 5] {
            play.gone(first_gone, [number]);
            play.gone(first_gone.other(), [number]);
        }
    }
}
