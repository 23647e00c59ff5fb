//! The full table, and loads and room after frees. A load counts as at least
//! 4 of the 64, so the table is full only when every load is 4 or more.

use super::TOP;
use crate::stored::walk_play::{one_by, Case, Play};

pub const LOADS: [[usize; 8]; 4] = [
    [8, 8, 8, 8, 8, 8, 8, 8],
    [16, 16, 12, 4, 4, 4, 4, 4],
    [16, 4, 8, 4, 16, 4, 8, 4],
    [9, 7, 8, 8, 4, 12, 5, 11],
];

pub const CASES: &[Case] = &[
    (TOP - 8, largest_load),
    (7, reserves),
    (1, one_place_left),
    (1, closed_frees_at_all_publishers),
    (TOP - 10, lost_frees_one_publisher),
];

/// A full table; then one slot at a time is freed and fought for.
pub fn one_freed(play: &mut Play, loads: [usize; 8]) {
    play.fill(loads, 31);
    play.probe(31);
    for (turn, slot) in [0, 63, 31, 32, 1, 62, 0, 63].into_iter().enumerate() {
        play.free(play.in_slot(slot), one_by(turn + 1));
        // Above its reserve any publisher may have the place, else only the
        // one that lost a request.
        play.probe(31);
        if turn == 3 {
            play.lost([3]);
            play.fill(loads, 31);
            play.probe(30);
        }
    }
    play.closed((0..32).rev());
}

/// Loads around 16 and back, at the first, a middle and the last publisher.
fn largest_load(play: &mut Play) {
    for publisher in [0, 3, 7] {
        play.fresh_many(17, publisher, publisher);
        for (turn, freed) in [1, 2, 5, 13, 16].into_iter().enumerate() {
            // The third of them finds room for 12 only.
            let freed = play.of(publisher).len().min(freed);
            for step in 0..freed {
                let own = play.of(publisher);
                let place = [0, own.len() - 1, own.len() / 2][(step + turn) % 3];
                play.free(own[place], one_by(step));
            }
            play.fresh_many(freed + 1, 8 + publisher, publisher);
        }
        play.lost([(publisher + 1) % 8]);
    }
    play.lost([3]);
    play.fresh_many(17, 5, 3);
    play.closed(0..16);
}

/// Shared room is gone while reserves are not used; loads at 3 and 4.
fn reserves(play: &mut Play) {
    play.fill([16, 16, 12, 3, 2, 1, 0, 0], 9);
    play.probe(9);
    play.probe(9);
    for turn in 0..4 {
        // Down to 3 of 4 and up again, with room for the same one only.
        play.free(play.of(3)[turn], one_by(turn));
        play.fresh(9, 2);
        play.fresh(9, 4);
        play.fresh_many(2, 9, 3);
    }
    play.probe(10);
    play.probe(10);
    play.closed(0..11);
}

/// 63 of the room, with and without requests in the reserves.
fn one_place_left(play: &mut Play) {
    for (turn, loads) in [
        [16, 16, 11, 4, 4, 4, 4, 4],
        [16, 16, 11, 0, 0, 0, 0, 0],
        [8, 8, 8, 8, 8, 8, 8, 7],
    ]
    .into_iter()
    .enumerate()
    {
        play.fill(loads, 6);
        play.probe(6);
        play.probe(7);
        for slot in [0, 40] {
            play.free(play.in_slot(slot), one_by(turn));
            play.free(play.in_slot(slot + 1), one_by(turn + 1));
            play.probe(8);
        }
        play.lost([turn as u8]);
        play.probe(9);
        play.closed(0..10);
    }
}

/// A link with two requests at each publisher is closed in a full table.
fn closed_frees_at_all_publishers(play: &mut Play) {
    for link in [9, 31] {
        play.fill([3; 8], 8);
        (0..8).for_each(|publisher| play.fresh_many(2, link, publisher));
        play.fill([8; 8], 8);
        play.probe(20);
        play.closed([link]);
        // From 6 each: one goes to 16, the others get what is left.
        play.fresh_many(11, 21, link % 8);
        (1..8).for_each(|step| play.fresh_many(2, 22, (link + step) % 8));
        play.closed([21, 22]);
        play.probe(23);
        play.lost((0..8).rev());
    }
}

/// A publisher is lost in a full table; its reserve is its own again.
fn lost_frees_one_publisher(play: &mut Play) {
    for lost in [0, 5] {
        play.fill([16, 16, 12, 4, 4, 4, 4, 4], 13);
        play.lost([lost]);
        for publisher in [1, 2, 3, 0, 6] {
            play.fresh_many(5, 13, publisher);
        }
        (0..8).for_each(|publisher| play.fresh_many(2, 14, publisher));
        play.closed([13]);
        play.probe(15);
        play.lost(0..8);
    }
}
