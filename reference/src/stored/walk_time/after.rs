//! What ran out is nowhere: its ends are unknown, its front number may be asked
//! again, its load and room are given back. The numbering goes on.

use super::{fill_by, list_rest, TOP};
use crate::stored::walk_play::{Case, Entry, Play};

pub const CASES: &[Case] = &[
    (7, late_ends),
    (TOP - 3, asked_again),
    (1, numbering_goes_on),
    (TOP - 3, numbering_goes_on),
    (7, load_and_room_given_back),
];

/// Some that run out at `time` + 10, among others; hands them back.
fn some_run_out(play: &mut Play, time: u64) -> Vec<Entry> {
    for turn in 0..14 {
        let timeout = [10, 0, 9, 60, 10][usize::from(turn) % 5];
        play.fresh_by(turn % 4, turn % 6, time, timeout);
    }
    let due = |entry: &&Entry| entry.deadline.is_some_and(|at| at <= time + 10);
    let freed = play.entries.iter().filter(due).copied().collect();
    play.run_out([time + 10]);
    freed
}

/// Their replies and cancels come late, lists are without them, and so is the
/// next run-out; one that stayed is found.
fn late_ends(play: &mut Play) {
    for _ in 0..2 {
        let time = play.latest_time() + 100;
        let freed = some_run_out(play, time);
        freed.iter().for_each(|&entry| play.both_ends(entry));
        play.both_ends(play.entries[1]);
        play.run_out([time + 10, time + 11]);
        play.closed([0, 1]);
        play.lost([0, 2]);
        play.run_out([time + 60]);
        freed.iter().for_each(|&entry| play.reply(entry.publisher));
        list_rest(play);
    }
}

/// The same front numbers, accepted once; late replies to the old numbers do
/// not find the new requests, which have deadlines of their own.
fn asked_again(play: &mut Play) {
    for step in [0, 3] {
        let time = play.latest_time() + 100;
        let freed = some_run_out(play, time);
        for entry in &freed {
            let publisher = (entry.publisher.0 + step) % 8;
            play.ask_by(entry.front, publisher, time, 30);
            play.ask_by(entry.front, (publisher + 1) % 8, time, 30);
            play.reply(entry.publisher);
        }
        play.run_out([time + 39]);
        play.cancel(freed[1].front);
        play.run_out([time + 40]);
        let (link, number) = freed[1].front;
        play.ask(link, number, 7);
        play.ask(link, number, 7);
        list_rest(play);
    }
}

/// With some, one and none left in flight at the publisher.
fn numbering_goes_on(play: &mut Play) {
    for publisher in [0, 6] {
        for turn in 0..5 {
            let time = play.latest_time() + 10;
            (0..=turn).for_each(|link| play.fresh_by(link, publisher, time, 5));
            play.fresh_by(7, publisher, time, 5 + u32::from(turn % 2) * 8);
            play.fresh(2, 3);
            play.run_out([time + 5, time + 5]);
            play.fresh_by(1, publisher, 0, 0);
            play.reply((publisher, play.first));
        }
        play.run_out([play.latest_time() + 100]);
        play.fresh(1, publisher);
        list_rest(play);
        play.fresh_by(1, publisher, 0, 0);
    }
}

/// Full loads and a full table run out, and as much is accepted again.
fn load_and_room_given_back(play: &mut Play) {
    for publisher in [2, 5] {
        let time = play.latest_time() + 10;
        (0..17).for_each(|turn| play.fresh_by(turn % 9, publisher, time, 5));
        play.run_out([time + 4, time + 5]);
        (0..17).for_each(|turn| play.fresh_by(turn % 9, publisher, time, 15));
        play.run_out([time + 20]);
    }
    let time = play.latest_time() + 10;
    fill_by(play, [16, 16, 12, 4, 4, 4, 4, 4], time, &[9, 0, 9, 70]);
    play.probe(9);
    play.run_out([time + 9]);
    (0..4).for_each(|_| play.probe(10));
    play.run_out([time + 70]);
    play.probe(11);
    list_rest(play);
}
