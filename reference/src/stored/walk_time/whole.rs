//! Full tables, and the publisher that hangs with its sixteen requests.

use super::{fill_by, list_rest, TOP};
use crate::clock::LARGEST_TIME;
use crate::stored::walk_play::{Case, Play};

pub const CASES: &[Case] = &[
    (TOP - 3, all_at_once),
    (1, a_hung_publisher),
    (7, one_by_one),
];

/// 64 run out at once, with every load at 8 and with loads that differ.
fn all_at_once(play: &mut Play) {
    for loads in [[8; 8], [16, 4, 12, 4, 4, 4, 4, 16]] {
        let time = play.latest_time() + 1000;
        fill_by(play, loads, time, &[90, 20, 50]);
        play.probe(30);
        // Refused, so their time is not seen.
        (0..8).for_each(|publisher| play.fresh_by(29, publisher, time + 90, 1));
        play.run_out([time + 19, time + 90, time + 90]);
        play.probe(30);
        list_rest(play);
    }
}

/// Others are answered meanwhile; its sixteen run out and it may have as many
/// again, with the clock at its end.
fn a_hung_publisher(play: &mut Play) {
    for time in [5000, LARGEST_TIME - 300] {
        (0..16).for_each(|turn| play.fresh_by(turn % 6, 3, time + u64::from(turn), 200));
        for turn in 0..8 {
            let time = time + 20 * u64::from(turn);
            play.fresh_by(turn, turn % 3, time, 100);
            play.reply(play.entries[16].publisher);
            play.fresh_by(turn, 3, time, 100);
            play.run_out([time]);
        }
        play.run_out([time + 207]);
        (0..9).for_each(|turn| play.fresh_by(turn, 3, time + 207, 90));
        play.run_out([time + 215, time + 297]);
        list_rest(play);
    }
}

/// A full table in which one deadline after the other is reached; those with
/// none stay.
fn one_by_one(play: &mut Play) {
    let timeouts: Vec<u32> = (0..64).map(|turn| turn * 37 % 64).collect();
    fill_by(play, [8; 8], 1 << 32, &timeouts);
    play.fresh(20, 5);
    (0..66).for_each(|step| play.run_out([(1 << 32) + step]));
    list_rest(play);
}
