//! What a freed slot still holds is not found: neither its numbers nor its
//! place in a publisher's mask, before and after the slot is used again.

use super::TOP;
use crate::stored::walk_play::{one_by, Case, Play, Way, WAYS};

pub const CASES: &[Case] = &[
    (TOP - 5, twice),
    (TOP - 1, used_again),
    (1, masks_let_go),
    (1, full_masks_let_go),
    (7, the_other_publishers_number),
    (1, all_gone),
];

/// Freed in each way; its ends, and those of all freed with it, come late.
fn twice(play: &mut Play) {
    for way in WAYS {
        for slot in [0, 11] {
            play.fill([3, 3, 2, 2, 1, 1, 0, 0], 4);
            let before = play.entries.clone();
            play.free(play.in_slot(slot), way);
            let left: Vec<usize> = play.entries.iter().map(|entry| entry.slot).collect();
            for entry in before {
                if !left.contains(&entry.slot) {
                    play.both_ends(entry);
                }
            }
            play.free(play.entries[0], one_by(slot));
            play.lost([0, 1, 2]);
            play.closed(0..4);
        }
    }
}

/// As before, but the slot holds another request by then, of another link and
/// another publisher; neither of the old ones lists it.
fn used_again(play: &mut Play) {
    for way in WAYS {
        for slot in [0, 4, 8] {
            play.fill([3, 2, 2, 2, 0, 0, 0, 0], 4);
            let old = play.in_slot(slot);
            play.free(old, way);
            let gone = 9 - play.entries.len();
            (0..gone).for_each(|turn| play.fresh(9, 4 + (turn % 3) as u8));
            play.both_ends(old);
            play.both_ends(play.in_slot(slot));
            play.fresh(10, 7);
            play.both_ends(old);
            play.lost([old.publisher.0]);
            play.closed([old.front.0]);
            play.closed([9, 10, 0, 1, 2, 3]);
        }
    }
}

/// Eight slots change their publisher: the old one has none then, lists none,
/// and has all its load to give again.
fn masks_let_go(play: &mut Play) {
    for (turn, way) in WAYS.into_iter().enumerate() {
        let (old, new) = (turn as u8, 7 - turn as u8);
        play.fresh_many(8, 2, old);
        while let Some(&entry) = play.entries.last() {
            play.free(entry, way);
        }
        play.fresh_many(8, 3, new);
        play.lost([old]);
        play.closed([2]);
        play.fresh_many(17, 2, old);
        play.fresh_many(9, 3, new);
        play.free(play.entries[0], Way::Reply);
        play.lost([old, new]);
        play.closed([2, 3]);
    }
}

/// In a full table every slot goes over to another publisher by lost, and the
/// upper ones to others by reply and by cancel; what each has is listed.
fn full_masks_let_go(play: &mut Play) {
    play.fill([8; 8], 9);
    for pair in [0, 2, 4, 6] {
        play.lost([pair, pair + 1]);
        // The freed slots alternate between the two, as rounds filled them.
        for turn in 0..8 {
            play.fresh(turn, pair + 1);
            play.fresh(turn + 1, pair);
        }
    }
    play.lost([0, 1]);
    play.fill([8; 8], 9);
    for (way, step) in [(Way::Reply, 1), (Way::Cancel, 2)] {
        for slot in 32..64 {
            let entry = play.in_slot(slot);
            play.free(entry, way);
            play.fresh(9, entry.publisher.0 ^ step);
        }
    }
    play.lost((0..8).rev());
}

/// Numbers that another publisher has in flight, and front numbers of another
/// link, with a different request at each place.
fn the_other_publishers_number(play: &mut Play) {
    play.fill([12, 3, 7, 1, 0, 5, 4, 2], 6);
    let entries = play.entries.clone();
    for (age, entry) in entries.iter().enumerate() {
        let other = (entry.publisher.0 + 1 + (age % 7) as u8) % 8;
        play.reply((other, entry.publisher.1));
        // Its own number, when its turn has not come, and the front's.
        play.reply((entry.publisher.0, entry.front.1));
        play.cancel(((entry.front.0 + 1) % 6, entry.front.1));
        play.cancel((entry.front.0, entry.publisher.1));
    }
    play.closed([4, 1, 5, 0, 2, 3]);
}

/// A table with all reserves used is emptied in each way; then none of its numbers is known.
fn all_gone(play: &mut Play) {
    for (turn, way) in WAYS.into_iter().enumerate() {
        play.fill([4; 8], 7);
        let entries = play.entries.clone();
        while let Some(&entry) = play.entries.get(play.entries.len() / 2) {
            play.free(entry, way);
        }
        for &entry in entries.iter().skip(turn).step_by(5) {
            play.both_ends(entry);
        }
        play.closed(0..7);
        play.lost(0..8);
    }
}
