//! A front number in flight at the same link is refused whatever slot holds
//! it, and is free again after each of the four ways.

use super::TOP;
use crate::stored::walk_play::{Case, Play, WAYS};

pub const CASES: &[Case] = &[
    (1, at_every_publisher),
    (TOP - 4, in_a_full_table),
    (TOP, again_after_each_way),
    (1, one_number_for_all_links),
];

/// Asked again at every publisher; then at another link, which is no fault.
fn at_every_publisher(play: &mut Play) {
    play.fill([3; 8], 5);
    for slot in [0, 1, 12, 22, 23] {
        let (link, number) = play.in_slot(slot).front;
        play.ask_each((link, number), 0..8);
        play.ask(link, -number, 7 - (slot % 8) as u8);
        play.ask(20 + (slot % 11) as u8, number, (slot % 8) as u8);
        play.ask(20 + (slot % 11) as u8, number, 0);
    }
    play.closed((0..5).chain(20..32));
}

/// With no room for it either, in every slot; then where a slot was just used
/// again.
fn in_a_full_table(play: &mut Play) {
    play.fill([16, 16, 12, 4, 4, 4, 4, 4], 11);
    for slot in 0..64 {
        let (link, number) = play.in_slot(slot).front;
        play.ask(link, number, (slot % 8) as u8);
    }
    for slot in [0, 31, 32, 63] {
        let entry = play.in_slot(slot);
        let (link, number) = entry.front;
        play.ask_each(entry.front, [0, 2, 7]);
        play.cancel(entry.front);
        play.ask(link, number, entry.publisher.0);
        play.ask_each(entry.front, [0, 2, 7]);
        play.ask(31, number, entry.publisher.0);
    }
    play.closed(0..11);
}

/// Freed in each way from the first, a middle and the last slot, then asked at
/// another publisher: accepted once.
fn again_after_each_way(play: &mut Play) {
    for way in WAYS {
        for slot in [0, 4, 8] {
            play.fill([2, 2, 2, 2, 1, 0, 0, 0], 4);
            let entry = play.in_slot(slot);
            let (link, number) = entry.front;
            play.ask(link, number, 6);
            play.free(entry, way);
            play.ask(link, number, 5);
            play.ask(link, number, entry.publisher.0);
            play.ask(link, number, 5);
            play.free(play.entries[play.entries.len() - 1], way);
            play.ask(link, number, entry.publisher.0);
            play.cancel(entry.front);
            play.cancel(entry.front);
            play.closed([3, 1, 2, 0]);
        }
    }
}

/// Every link has the same number in flight, once and not twice.
fn one_number_for_all_links(play: &mut Play) {
    for number in [1, i64::MIN] {
        for link in 0..32 {
            play.ask(link, number, link % 8);
            play.ask(link, number, (link + 1) % 8);
        }
        for link in [17, 0, 31] {
            play.cancel((link, number));
        }
        for link in [31, 17, 0] {
            play.ask(link, number, link % 8);
        }
        for link in [31, 16, 0] {
            play.ask(link, number, link % 8);
        }
        play.closed([16]);
        play.lost((0..8).rev());
    }
}
