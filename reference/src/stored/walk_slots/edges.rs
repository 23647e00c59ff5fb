//! The ends of the ranges, zero numbers, calls to which two rows of the
//! refusals apply, and publisher numbers that go past the largest.

use super::TOP;
use crate::stored::walk_play::{one_by, Case, Play};
use crate::stored::walk_scripts::nth;

pub const CASES: &[Case] = &[
    (1, every_side_out_of_range),
    (1, last_sides),
    (TOP - 2, two_rows_apply),
    (TOP, past_the_largest),
    (TOP - 7, past_the_largest),
    (TOP - 15, past_the_largest),
    (TOP - 6, numbers_of_eight_publishers),
];

/// No side beyond the last stands for one within, as it would if only its low
/// bits counted.
fn every_side_out_of_range(play: &mut Play) {
    (0..32).for_each(|link| play.fresh(link, link % 8));
    play.closed(32..=255);
    play.lost(8..=255);
    for high in [32, 64, 96, 128, 224] {
        play.cancel((high, 1));
        play.cancel((high + 5, 1));
        play.ask(high + 5, 9, 5);
        play.reply((high, 1));
        play.reply((high / 4 + 5, 1));
        play.ask(5, 9, high / 4 + 5);
    }
    play.lost(0..8);
}

/// The first and last link and publisher, with none, one and some.
fn last_sides(play: &mut Play) {
    for (link, publisher) in [(31, 7), (0, 7), (31, 0), (0, 0)] {
        play.closed([link]);
        play.lost([publisher]);
        for size in [1, 2, 5] {
            play.fresh_many(size, link, publisher);
            play.fresh(15, 3);
            play.closed([link, link, 32, 30, 1]);
            play.fresh_many(size, link, publisher);
            play.lost([publisher, publisher, 8, 6, 1]);
        }
        play.closed([15]);
    }
}

/// In an empty table, with shared room gone, and in a full table.
fn two_rows_apply(play: &mut Play) {
    let loads = [
        [0; 8],
        [16, 16, 12, 0, 0, 0, 0, 0],
        [16, 16, 12, 4, 4, 4, 4, 4],
    ];
    for loads in loads {
        play.fill(loads, 12);
        let (link, number) = play.at(0).map_or((0, 1), |entry| entry.front);
        for publisher in [0, 2, 3, 7] {
            play.ask(32, 0, publisher);
            play.ask(32, number, publisher);
            play.ask(link, 0, publisher);
        }
        for publisher in [8, 255] {
            play.ask(link, 0, publisher);
            play.ask(link, number, publisher);
            play.ask(32, number, publisher);
            play.reply((publisher, 0));
            play.reply((publisher, number));
        }
        (0..8).for_each(|publisher| play.reply((publisher, 0)));
        for link in [0, 11, 31, 32, 255] {
            play.cancel((link, 0));
        }
        play.cancel((32, number));
        if !play.entries.is_empty() {
            play.ask_each((link, number), [0, 1, 2, 3]);
        }
        // With a load of 16 and no shared room, it is the load.
        for publisher in [0, 1, 2] {
            play.fresh(13, publisher);
        }
        play.closed([32, 13]);
        play.lost([8]);
    }
    play.closed(0..12);
}

/// A load of 16 across the largest number, twice, with frees between; replies
/// by numbers that a wrong step past the largest would have given.
fn past_the_largest(play: &mut Play) {
    let first = play.first;
    play.fresh_many(17, 3, 5);
    for number in [i64::MIN, -1, 0, i64::MIN + 1] {
        play.reply((5, number));
    }
    for turn in 0..8 {
        play.free(play.in_slot(15 - 2 * turn), one_by(turn));
    }
    play.fresh_many(9, 4, 5);
    for step in (0..25).rev() {
        play.reply((5, nth(first, step)));
    }
    play.fresh_many(3, 3, 5);
    play.fresh_many(2, 3, 4);
    play.closed([4]);
    play.lost([5]);
    play.closed([3]);
}

/// Eight numberings that do not hinder each other: a number in flight at the
/// others, or freed, or a front number, is not passed over.
fn numbers_of_eight_publishers(play: &mut Play) {
    let first = play.first;
    for step in 0..6 {
        for publisher in 0..8 {
            // The front number is the one that the publisher gets next.
            play.ask(publisher, nth(first, step + 1), publisher);
            play.ask(31 - publisher, nth(first, step), publisher);
        }
        play.lost([step as u8]);
        play.closed([step as u8 + 1, 31 - step as u8]);
    }
    for publisher in 0..8 {
        (0..12).for_each(|step| play.reply((publisher, nth(first, step))));
    }
}
