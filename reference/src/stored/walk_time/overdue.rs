//! Requests past their deadline that no run-out has freed: they are in flight
//! and count in the load, and every other call finds them.

use super::{fill_by, list_rest, TOP};
use crate::stored::walk_play::{Case, Play};

pub const CASES: &[Case] = &[
    (1, still_found),
    (TOP - 3, still_in_the_load),
    (7, still_in_the_room),
];

/// By reply, cancel, asks with their number, closed and lost; just due, due for
/// one ms, and for long.
fn still_found(play: &mut Play) {
    for late in [0, 1, 1000] {
        let time = play.latest_time() + 100;
        for turn in 0..12 {
            play.fresh_by(turn % 3, turn % 4, time, 5);
        }
        play.fresh_by(5, 5, time + 5 + late, 0);
        let [asked, replied, cancelled, ..] = play.entries[..] else {
            unreachable!("twelve and more are in flight");
        };
        play.ask_by(asked.front, 6, 0, 9);
        play.ask(asked.front.0, asked.front.1, 6);
        play.ask_by(asked.front, 6, time + 6 + late, 0);
        play.reply(replied.publisher);
        play.cancel(cancelled.front);
        play.both_ends(replied);
        play.closed([1]);
        play.lost([2]);
        play.fresh_by(6, 5, time + 6 + late, 1);
        play.run_out([0]);
        list_rest(play);
    }
}

/// A publisher with 16, all of them overdue; then some, then none.
fn still_in_the_load(play: &mut Play) {
    for publisher in [0, 7] {
        let time = play.latest_time() + 100;
        (0..12).for_each(|turn| play.fresh_by(turn % 5, publisher, time, 5));
        (0..4).for_each(|turn| play.fresh_by(turn, publisher, time + 1, 30));
        play.fresh_by(9, publisher, time + 5, 1);
        play.fresh_by(9, 3, time + 5, 0);
        play.fresh_by(9, publisher, time + 6, 1);
        play.fresh(9, publisher);
        play.run_out([time + 4]);
        (0..13).for_each(|turn| play.fresh_by(turn, publisher, 0, 2));
        play.fresh_by(9, 3, time + 50, 0);
        play.fresh(9, publisher);
        play.fresh_by(9, publisher, time + 70, 1);
        play.run_out([time + 40]);
        play.fresh(9, publisher);
        list_rest(play);
    }
}

/// A full table with overdue requests: no room is shared, and each publisher
/// has its reserve used.
fn still_in_the_room(play: &mut Play) {
    for loads in [[8; 8], [16, 16, 12, 4, 4, 4, 4, 4]] {
        let time = play.latest_time() + 100;
        fill_by(play, loads, time, &[5, 50, 0]);
        play.probe(20);
        play.fresh_by(21, 3, time + 5, 1);
        play.cancel(play.of(3)[0].front);
        play.fresh_by(21, 3, time + 5, 0);
        play.probe(20);
        (0..8).for_each(|publisher| play.fresh_by(20, publisher, time + 6, 0));
        play.run_out([0]);
        play.probe(22);
        (0..8).for_each(|publisher| play.fresh_by(23, publisher, time + 49, 1));
        play.run_out([time + 49]);
        play.run_out([time + 50]);
        list_rest(play);
    }
}
