//! The freed requests are listed in the order of acceptance: not in that of
//! the places they took, nor in that of peers or numbers.

use super::{fresh_between, TOP};
use crate::stored::walk_play::{one_by, Case, Play, Way};
use crate::table::Side;

pub const CASES: &[Case] = &[
    (1, places_used_again),
    (TOP - 3, places_used_again),
    (7, places_freed_by_the_other_side),
    (1, newest_in_the_oldest_place),
    (TOP - 3, numbers_past_the_largest),
    (1, everything_falls),
    (7, what_stays_keeps_its_order),
];

/// Two peers by turns; holes among their requests are filled by newer ones.
fn places_used_again(play: &mut Play) {
    for side in Side::BOTH {
        let ask = |play: &mut Play, turn: u8| {
            fresh_between(play, side, [2, 5][usize::from(turn % 2)], 7 - turn % 8);
        };
        (0..12).for_each(|turn| ask(play, turn));
        for (turn, slot) in [0, 5, 6, 8, 11].into_iter().enumerate() {
            play.free(play.in_slot(slot), one_by(turn));
        }
        (5..13).for_each(|turn| ask(play, turn));
        for (turn, slot) in [3, 0, 7].into_iter().enumerate() {
            play.free(play.in_slot(slot), one_by(turn));
        }
        (2..8).for_each(|turn| ask(play, turn));
        play.gone(side, [2, 5]);
    }
}

/// A peer of the other side frees the places; the same peers use them again.
fn places_freed_by_the_other_side(play: &mut Play) {
    for side in Side::BOTH {
        for round in 0..4 {
            for turn in 0..12 {
                fresh_between(play, side, turn % 3, (turn * 5 + round) % 4);
            }
            play.gone(side.other(), [round]);
            play.gone(side, [round % 3]);
        }
        play.gone(side, 0..3);
    }
}

/// The oldest is freed and a newer one takes its place, again and again.
fn newest_in_the_oldest_place(play: &mut Play) {
    for side in Side::BOTH {
        (0..6).for_each(|other| fresh_between(play, side, 6, other));
        for turn in 0..9 {
            play.free(play.entries[0], one_by(turn));
            fresh_between(play, side, 6, (turn * 3 % 8) as u8);
        }
        play.gone(side, [6]);
    }
}

/// Newer requests have smaller publisher numbers, at one publisher and at two.
fn numbers_past_the_largest(play: &mut Play) {
    for turn in 0..12 {
        play.fresh(turn % 4, 5);
    }
    play.free(play.entries[2], Way::Reply);
    play.gone(Side::Publisher, [5]);
    for turn in 0..16 {
        play.fresh(5, turn % 2);
    }
    play.free(play.entries[5], Way::Cancel);
    play.gone(Side::Front, [5]);
}

/// The other ends' peers fall, and so do the front numbers.
fn everything_falls(play: &mut Play) {
    for turn in 0..16 {
        play.ask(31 - turn, 500 - i64::from(turn), 3);
    }
    play.gone(Side::Publisher, [3]);
    for turn in 0..16 {
        play.ask(3, -500 - i64::from(turn), 7 - turn / 2);
    }
    play.gone(Side::Front, [3]);
}

/// Three peers of each side in all pairs. One of a side is gone, others take
/// the places, and the next lists show that the rest is in order.
fn what_stays_keeps_its_order(play: &mut Play) {
    for side in Side::BOTH {
        for turn in 0..27 {
            fresh_between(play, side, turn % 3, turn / 3 % 3);
        }
        play.gone(side, [1]);
        for turn in 0..5 {
            fresh_between(play, side, 2 * (turn % 2), turn % 3);
        }
        play.gone(side.other(), [0]);
        (0..4).for_each(|turn| fresh_between(play, side, 0, 3 - turn));
        play.gone(side, [2, 0]);
    }
}
