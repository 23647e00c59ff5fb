//! The largest time, and the widths of times, timeouts, deadlines and front
//! numbers.

use super::{list_rest, TOP};
use crate::clock::LARGEST_TIME;
use crate::stored::walk_play::{Case, Play};

pub const CASES: &[Case] = &[
    (7, up_to_the_largest_time),
    (1, past_the_largest_time),
    (TOP - 3, wide_times),
    (7, wide_timeouts),
    (1, wide_timeouts_late),
    (TOP - 3, wide_front_numbers),
];

const END: u64 = LARGEST_TIME + 1;

/// Deadlines up to the largest time are reached; the first time beyond is
/// refused, and so are all that would be small as signed numbers.
fn up_to_the_largest_time(play: &mut Play) {
    for (peer, back) in (0..).zip([20, 11, 10, 1, 0]) {
        play.fresh_by(peer, 7 - peer, LARGEST_TIME - 20, 20 - back);
        play.fresh_by(peer, peer, END, 1);
        play.run_out([END, 1 << 63, u64::MAX, LARGEST_TIME - 20]);
    }
    play.run_out([LARGEST_TIME - 11, LARGEST_TIME - 10]);
    play.fresh_by(8, 0, LARGEST_TIME - 1, 1);
    play.run_out([END + 10, LARGEST_TIME - 1]);
    play.ask_by((9, 1), 1, LARGEST_TIME, 0);
    for time in [END, END + 1, 1 << 63, (1 << 63) + 5, 3 << 62, u64::MAX] {
        play.fresh_by(10, 2, time, 0);
        play.fresh_by(10, 2, time, 100);
        play.run_out([time]);
    }
    play.run_out([0, LARGEST_TIME]);
    list_rest(play);
}

/// Deadlines that no time reaches: not cut, not turned over, not set to the
/// largest time. Until they are freed otherwise they are in flight.
fn past_the_largest_time(play: &mut Play) {
    play.fresh_by(1, 0, LARGEST_TIME - 4, 4);
    play.fresh_by(2, 0, LARGEST_TIME - 4, 5);
    play.fresh_by(3, 1, 0, 6);
    play.fresh_by(4, 1, 7, u32::MAX);
    play.run_out([0, LARGEST_TIME - 1]);
    play.run_out([LARGEST_TIME, LARGEST_TIME]);
    for (link, timeout) in (1..).zip([1, 2, 1 << 31, u32::MAX, 0]) {
        play.fresh_by(link, 2, LARGEST_TIME, timeout);
        play.fresh_by(link, 3, 0, timeout);
        play.run_out([LARGEST_TIME, 5]);
    }
    play.run_out([END, END + 1, LARGEST_TIME]);
    play.both_ends(play.entries[1]);
    play.both_ends(play.entries[4]);
    play.closed([4]);
    list_rest(play);
    play.run_out([LARGEST_TIME]);
}

/// Times around the powers of 2 at which narrower numbers would turn over.
fn wide_times(play: &mut Play) {
    for power in [8, 15, 16, 31, 32, 33, 40, 52, 53, 61] {
        let turn = 1 << power;
        play.fresh_by(1, 0, turn - 5, 10);
        play.fresh_by(2, 1, turn - 5, 4);
        play.fresh_by(3, 2, turn - 5, 5);
        play.run_out([turn - 5, turn - 1, turn]);
        play.fresh_by(4, 3, turn, 3);
        play.fresh_by(5, 4, turn + 1, 5);
        play.run_out([turn + 2, turn + 3, turn + 4, turn + 5, turn + 6]);
    }
}

/// At time 0 and a little later: the longest are accepted first.
fn wide_timeouts(play: &mut Play) {
    timeouts_from(play, 0);
    timeouts_from(play, 1 << 34);
}

/// Where the deadline's lower half turns over.
fn wide_timeouts_late(play: &mut Play) {
    timeouts_from(play, (1 << 40) - 3);
    timeouts_from(play, (1 << 61) + (1 << 31));
}

/// Just before and at the deadline of each, from the nearest to the farthest.
fn timeouts_from(play: &mut Play, time: u64) {
    let half = 1 << 31;
    let widths = [1, 255, 256, 65_535, 65_536, half - 1, half, half + 1];
    let longest = [u32::MAX - 1, u32::MAX];
    let timeouts = [&widths[..], &longest].concat();
    for (turn, &timeout) in timeouts.iter().rev().enumerate() {
        play.fresh_by((turn % 3) as u8, (turn % 8) as u8, time, timeout);
    }
    play.fresh_by(9, 4, time, 0);
    for timeout in timeouts {
        let deadline = time + u64::from(timeout);
        play.run_out([deadline - 1, deadline]);
    }
    play.closed([9]);
}

/// The same from two links; one is asked again after it ran out.
fn wide_front_numbers(play: &mut Play) {
    let numbers = [
        -1,
        i64::MIN,
        TOP,
        1,
        i64::MIN + 1,
        TOP - 1,
        1 << 31,
        1 << 32,
    ];
    for publisher in [0, 4] {
        let time = play.latest_time() + 100;
        for (turn, &number) in numbers.iter().enumerate() {
            let timeout = 10 + turn as u32 % 3;
            play.ask_by((31, number), publisher, time, timeout);
            play.ask_by((publisher, number), publisher, time, timeout + 1);
        }
        play.run_out([time + 10, time + 11]);
        for number in [TOP, i64::MIN, -1] {
            play.cancel((31, number));
            play.ask_by((31, number), publisher, time, 1);
            play.ask_by((31, number), publisher, time, 1);
        }
        play.run_out([time + 13]);
    }
}
