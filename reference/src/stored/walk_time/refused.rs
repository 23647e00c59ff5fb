//! The time of a refused call is not seen, whatever row refuses it; and a time
//! too large is 30 before any other row of an ask.

use super::{list_rest, TOP};
use crate::clock::LARGEST_TIME;
use crate::stored::walk_play::{Case, Play};
use crate::table::End;

pub const CASES: &[Case] = &[
    (1, asks_not_seen),
    (TOP - 3, run_outs_not_seen),
    (7, time_before_other_rows),
];

/// Times from the first that is refused to the largest of 64 bits.
const BEYOND: [u64; 6] = [
    1 << 62,
    (1 << 62) + 1,
    1 << 63,
    (1 << 63) + 8,
    3 << 62,
    u64::MAX,
];

/// Loads of 16, shared room gone, and room in reserves only. None of these
/// runs out.
fn crowded(play: &mut Play) {
    play.fill([16, 16, 12, 0, 0, 0, 0, 0], 12);
}

/// Asks refused by link, publisher, number 0, in flight, load and room.
fn refused(play: &Play) -> [(End, u8); 6] {
    let in_flight = play.entries[5].front;
    [
        ((32, 1), 3),
        ((31, 1), 8),
        ((31, 0), 3),
        (in_flight, 3),
        ((31, 1), 0),
        ((31, 1), 2),
    ]
}

/// What is in flight is not yet due after `step`, though it would be by the
/// time that the step brings; nor is a new deadline counted from that.
fn not_seen(play: &mut Play, step: impl Fn(&mut Play, u64)) {
    let time = play.latest_time() + 100;
    play.fresh_by(20, 4, time, 10);
    step(play, time + 10);
    play.run_out([0]);
    play.fresh_by(21, 5, 0, 10);
    step(play, time + 1_000_000);
    play.fresh_by(22, 6, 0, 11);
    play.run_out([time + 9, time + 10, time + 11]);
}

fn asks_not_seen(play: &mut Play) {
    crowded(play);
    for (front, publisher) in refused(play) {
        for timeout in [0, 7] {
            not_seen(play, |play, time| {
                play.ask_by(front, publisher, time, timeout);
            });
        }
    }
    for time in BEYOND {
        not_seen(play, |play, _| play.ask_by((31, 1), 3, time, 7));
    }
    list_rest(play);
}

/// With an ask of each refused kind between them, so that neither's time is
/// seen by way of the other.
fn run_outs_not_seen(play: &mut Play) {
    crowded(play);
    for (time, (front, publisher)) in BEYOND.into_iter().zip(refused(play)) {
        not_seen(play, |play, _| play.run_out([time]));
        not_seen(play, |play, later| {
            play.ask_by(front, publisher, later, 0);
            play.run_out([time]);
            play.ask_by(front, publisher, time, 9);
        });
    }
    list_rest(play);
}

/// Each row with a time that is taken, and with times that are not.
fn time_before_other_rows(play: &mut Play) {
    crowded(play);
    play.fresh_by(20, 4, 100, 10);
    for (front, publisher) in refused(play) {
        play.ask_by(front, publisher, LARGEST_TIME, 0);
        for time in BEYOND {
            play.ask_by(front, publisher, time, time as u32);
        }
        play.run_out([0]);
    }
    for time in BEYOND {
        play.ask_by((32, 0), 8, time, 1);
        play.ask_by((31, 1), 3, time, 0);
        play.run_out([time, 109]);
    }
    play.run_out([110]);
    list_rest(play);
}
