//! Requests without a deadline: old asks, and asks without a timeout. Neither
//! runs out, whatever else does; only the latter bring a time.

use super::{list_rest, TOP};
use crate::clock::LARGEST_TIME;
use crate::stored::walk_play::{Case, Play, Way, WAYS};
use crate::table::Side;

pub const CASES: &[Case] = &[
    (1, among_deadlines),
    (7, places_used_again),
    (TOP - 3, places_used_again),
    (1, calls_without_a_time),
    (7, calls_without_a_time),
];

/// At the first and last time and between.
fn among_deadlines(play: &mut Play) {
    for time in [0, 3, 5000, LARGEST_TIME - 10] {
        for peer in 0..6 {
            match peer % 3 {
                0 => play.fresh(peer, 7 - peer),
                1 => play.fresh_by(peer, 7 - peer, time, 0),
                _ => play.fresh_by(peer, 7 - peer, time, 1 + u32::from(peer)),
            }
            play.run_out([time]);
        }
        play.fresh_by(6, 1, 0, 0);
        play.fresh_by(6, 2, 0, 12);
        play.run_out([time + 2, time + 3, time + 6, 0, time + 10]);
        play.lost([7, 6, 4]);
    }
    play.run_out([LARGEST_TIME]);
    list_rest(play);
}

/// Requests with deadlines are freed in each way; others without take their
/// places, or with later deadlines, and do not run out with them.
fn places_used_again(play: &mut Play) {
    for way in WAYS.into_iter().map(Some).chain([None]) {
        let time = play.latest_time() + 100;
        (0..6).for_each(|turn| play.fresh_by(turn % 2, turn / 2, time, 10));
        while let (Some(&entry), Some(way)) = (play.entries.last(), way) {
            play.free(entry, way);
        }
        play.run_out([time + 10 * u64::from(way.is_none())]);
        for turn in 0..6 {
            match turn % 3 {
                0 => play.fresh(3, 5),
                1 => play.fresh_by(4, 6, time, 0),
                _ => play.fresh_by(5, 7, time, 20 + turn),
            }
        }
        play.run_out([time + 10, time + 19, time + 35, time + 60]);
        play.free(play.entries[0], Way::Cancel);
        play.fresh_by(2, 5, 0, 1);
        play.run_out([time + 60, time + 61]);
        list_rest(play);
    }
}

/// Old asks, replies, cancels and gone peers, accepted and refused: the time
/// moves neither on nor back.
fn calls_without_a_time(play: &mut Play) {
    let calls: [fn(&mut Play); 8] = [
        |play| play.fresh(9, 2),
        |play| play.ask(9, 0, 2),
        |play| play.reply(play.of(6)[0].publisher),
        |play| play.reply((6, TOP)),
        |play| play.cancel(play.of(6)[0].front),
        |play| play.cancel((9, TOP)),
        |play| play.gone(Side::Front, [9, 32]),
        |play| play.gone(Side::Publisher, [6, 2, 8]),
    ];
    for call in calls {
        let time = play.latest_time() + 50;
        play.fresh_many(2, 8, 6);
        play.fresh_by(1, 0, time, 2);
        play.fresh_by(1, 1, time + 1, 0);
        // One is due in a ms.
        call(play);
        play.run_out([0]);
        play.fresh_by(1, 3, time + 2, 1);
        // Now it is due; and one more in a ms.
        play.fresh_many(2, 8, 6);
        call(play);
        play.fresh_by(1, 4, 0, 1);
        play.run_out([0, time + 3]);
        list_rest(play);
    }
}
