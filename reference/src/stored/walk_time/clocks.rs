//! Clocks that stand, run on, jump and go back. The latest time seen counts,
//! and a request runs out at its deadline, not before.

use super::{list_rest, TOP};
use crate::clock::LARGEST_TIME;
use crate::stored::walk_play::{one_by, Case, Play};

pub const CASES: &[Case] = &[
    (1, stands),
    (TOP - 3, runs_on),
    (7, jumps),
    (1, goes_back),
    (TOP - 3, to_and_fro),
    (7, asks_bring_the_time),
    (1, run_outs_bring_the_time),
];

/// From a fresh table's time 0 on. With the clock standing nothing runs out;
/// then one deadline after the other is reached.
fn stands(play: &mut Play) {
    play.run_out([0, 0]);
    for time in [0, 1, 1000, 1 << 33] {
        for (peer, timeout) in (0..).zip([3, 1, 4, 2, 0, 1]) {
            play.fresh_by(7 - peer, peer, time, timeout);
            play.run_out([time]);
        }
        play.fresh(6, 6);
        (0..6).for_each(|step| play.run_out([time + step; 2]));
    }
    list_rest(play);
}

/// Run-outs a little before, at and after deadlines, replies and cancels
/// between them.
fn runs_on(play: &mut Play) {
    for step in 0..60 {
        let (time, peer) = (100 + 7 * step, (step % 8) as u8);
        let timeout = [7, 20, 0, 14, 35, 1, 60][(step % 7) as usize];
        play.fresh_by(peer + (step % 3) as u8, peer, time, timeout);
        match step % 4 {
            0 => play.run_out([time]),
            1 => play.run_out([time + 1, time + 6]),
            2 => play.free(
                play.entries[play.entries.len() / 2],
                one_by(step as usize / 4),
            ),
            _ => {}
        }
    }
    play.run_out([LARGEST_TIME]);
    list_rest(play);
}

/// Over none, some or all of the deadlines, by steps of all sizes.
fn jumps(play: &mut Play) {
    let mut time = 0;
    let halves = (1 << 31) - 1;
    for far in [1, 300, 70_000, halves, 1 << 31, 1 << 32, 1 << 40, 1 << 61] {
        for (link, timeout) in (0..).zip([50, 2, 0, 40_000, halves as u32, u32::MAX]) {
            play.fresh_by(link, (link + far as u8) % 8, time, timeout);
        }
        play.run_out([time + 1]);
        time += far;
        play.run_out([time - 1, time, time]);
        play.closed([2]);
    }
    list_rest(play);
}

/// A deadline is counted from the latest time, and a run-out at an earlier
/// time frees what the latest one does.
fn goes_back(play: &mut Play) {
    for (latest, early) in [(1000, 900), (5000, 0), (1 << 40, 1 << 39), (1 << 60, 9)] {
        play.fresh_by(3, 0, latest, 50);
        play.fresh_by(4, 1, early, 50);
        play.fresh_by(5, 1, early, 49);
        play.fresh_by(5, 4, early, 0);
        play.run_out([early, early + 49, early + 50, 0, latest + 48, early]);
        play.run_out([latest + 49, latest + 50]);

        play.fresh_by(3, 2, latest + 60, 5);
        play.fresh_by(4, 2, latest + 64, 0);
        play.run_out([early, latest]);
        play.fresh_by(5, 2, latest + 65, 0);
        play.fresh_by(5, 2, early, 1);
        play.run_out([early, 0, latest + 66, early]);
        play.closed(3..6);
    }
}

/// More on than back, with asks and run-outs on the way there and back.
fn to_and_fro(play: &mut Play) {
    for step in 0..24 {
        let (far, near) = (1000 + 30 * step, 980 + 30 * step);
        let peer = (step % 7) as u8;
        play.fresh_by(peer, 7 - peer, far, 30);
        play.fresh_by(peer, peer, near, 31);
        play.fresh_by(peer, 3, near, [0, 10][(step % 2) as usize]);
        play.run_out([near + 15, far + 5]);
        if step % 5 == 4 {
            play.run_out([far + 29, far + 30, 0]);
        }
    }
    list_rest(play);
}

/// The run-outs all say 0, from the fresh table on.
fn asks_bring_the_time(play: &mut Play) {
    play.run_out([0]);
    for step in 0..40 {
        let (time, peer) = (500 + 10 * step, (step % 8) as u8);
        let timeout = [25, 0, 10, 9, 0, 40][(step % 6) as usize];
        play.fresh_by(peer, 7 - peer, time, timeout);
        play.run_out([0]);
    }
    list_rest(play);
}

/// The asks all say 0, and so does a first run-out of the fresh table.
fn run_outs_bring_the_time(play: &mut Play) {
    play.run_out([0]);
    for step in 0..30 {
        let (time, peer) = (10 * step, (step % 8) as u8);
        let timeout = [25, 10, 0, 9, 40, 11][(step % 6) as usize];
        play.fresh_by(peer, 7 - peer, 0, timeout);
        play.run_out([time + 9]);
    }
    list_rest(play);
}
