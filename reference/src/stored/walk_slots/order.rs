//! A gone peer's requests are listed by age, though the slots say something
//! else; and every single place of the table freed.

use super::TOP;
use crate::generator::Generator;
use crate::stored::walk_play::{one_by, Case, Entry, Play, WAYS};

pub const CASES: &[Case] = &[
    (1, newest_in_the_first_slot),
    (TOP - 3, slots_against_ages),
    (TOP - 7, shuffled),
    (TOP - 20, rounds),
    (1, neighbours_in_age),
    (TOP - 100, old_ones_stay),
    (1, each_place_of_few),
    (1, each_place_of_48),
    (1, each_place_of_64),
    (1, first_and_last_place_of_64),
    (TOP, one_after_another),
];

/// The first slot is freed and taken again and again.
fn newest_in_the_first_slot(play: &mut Play) {
    for turn in 0..30 {
        play.fill([2, 2, 1, 0, 0, 0, 0, 0], 2);
        play.free(play.in_slot(0), one_by(turn));
        play.fresh((turn % 2) as u8, (turn % 3) as u8);
        match turn % 6 {
            3 => play.lost([0]),
            5 => play.closed([1, 0]),
            _ => {}
        }
    }
    play.lost(0..3);
}

/// The last slot's request becomes the oldest, the first slot's the newest.
fn slots_against_ages(play: &mut Play) {
    for load in [1, 8] {
        play.fill([load; 8], 3);
        for slot in (0..8 * load).rev() {
            let entry = play.in_slot(slot);
            play.free(entry, one_by(slot));
            play.fresh(slot as u8 % 3, entry.publisher.0);
        }
        play.closed([1]);
        play.lost([2, 5]);
        play.closed([0, 2]);
    }
}

/// Every request is replaced once, in random order.
fn shuffled(play: &mut Play) {
    let mut generator = Generator::new(31);
    for load in [2, 8] {
        play.fill([load; 8], 4);
        let mut slots: Vec<usize> = (0..8 * load).collect();
        while !slots.is_empty() {
            let next = generator.below(slots.len() as u64) as usize;
            let entry = play.in_slot(slots.swap_remove(next));
            play.free(entry, one_by(slots.len()));
            play.fresh(generator.below(4) as u8, entry.publisher.0);
        }
        play.lost([7, 0]);
        play.closed(0..4);
    }
}

/// Holes of many shapes, filled by other links and publishers; one of each is
/// listed before the next holes.
fn rounds(play: &mut Play) {
    for round in 0..6 {
        play.fill([6; 8], 5);
        let holes = (0..48).filter(|slot| match round {
            0 => slot % 3 == 1,
            1 => (16..32).contains(slot),
            2 => *slot < 12,
            3 => *slot >= 36,
            4 => slot % 2 == 0,
            _ => [0, 1, 2, 23, 24, 46, 47].contains(slot),
        });
        for slot in holes {
            if let Some(entry) = play.at(slot) {
                play.free(entry, one_by(slot / 3 + round));
            }
        }
        for turn in 0..14 {
            play.fresh(((turn + round) % 5) as u8, ((turn * 3 + round) % 7) as u8);
        }
        play.closed([(round % 5) as u8]);
        play.lost([(round % 7) as u8]);
    }
    play.lost(0..8);
}

/// Listed requests that are next to each other in age, alternate with others,
/// or are the oldest or the newest alone.
fn neighbours_in_age(play: &mut Play) {
    let shapes: [fn(usize) -> bool; 7] = [
        |age| age < 3,
        |age| age >= 13,
        |age| age % 2 == 0,
        |age| age % 2 == 1,
        |age| age == 0 || age == 15,
        |age| (5..12).contains(&age),
        |age| age != 9,
    ];
    for (turn, listed) in shapes.into_iter().enumerate() {
        for age in 0..16 {
            play.fresh(u8::from(listed(age)), (age % 7) as u8);
        }
        // The rest is older than what comes into the slots just freed.
        play.closed([1]);
        for age in 0..16 {
            let publisher = if listed(age) { 7 } else { (age % 7) as u8 };
            play.fresh((2 + turn % 3) as u8, publisher);
        }
        play.lost([7]);
        play.closed([0, 2, 3, 4]);
    }
}

/// Some requests stay while more come and go than a byte can count.
fn old_ones_stay(play: &mut Play) {
    play.fill([1, 1, 1, 2, 1, 1, 1, 0], 3);
    play.free(play.in_slot(2), one_by(0));
    play.free(play.in_slot(5), one_by(1));
    for turn in 0..270 {
        play.fresh(1, 3);
        let newest = play.entries[play.entries.len() - 1];
        if turn % 90 != 45 && turn != 269 {
            play.free(newest, one_by(turn));
        }
    }
    play.lost([3]);
    play.closed(0..3);
}

/// Each of 1, 2, 3 and 16 places, listed by link and then by publisher.
fn each_place_of_few(play: &mut Play) {
    for size in [1, 2, 3, 16] {
        for place in 0..size {
            for turn in 0..size {
                play.fresh(3, (turn % 5) as u8);
            }
            play.free(play.entries[place], one_by(place));
            play.closed([3]);
            play.fresh(3, 5);
            play.closed([3]);

            for turn in 0..size {
                play.fresh((turn % 4) as u8, 5);
            }
            play.free(play.entries[place], one_by(place + 1));
            play.fresh(1, 5);
            play.lost([5]);
            play.fresh(1, 5);
            play.lost([5]);
        }
    }
}

/// Each place of 48, by age, in blocks of one publisher each. A block lost is
/// filled up by the publisher that had none, so its slots change hands.
fn each_place_of_48(play: &mut Play) {
    for (publisher, size) in [10, 4, 8, 6, 9, 5, 6].into_iter().enumerate() {
        by_one_publisher(play, publisher as u8, size);
    }
    let mut left: Vec<usize> = (0..48).collect();
    while !left.is_empty() {
        let mut lost = play.entries[0].publisher.0;
        if let Some(entry) = next_place(play, &mut left, |entry| entry.publisher.0) {
            play.free(entry, one_by(left.len()));
            play.fresh(entry.front.0, entry.publisher.0);
            lost = entry.publisher.0;
        }
        let unused = (0..8).find(|&publisher| play.of(publisher).is_empty());
        play.lost([lost]);
        by_one_publisher(play, unused.expect("seven blocks"), 48 - play.entries.len());
    }
    play.lost(0..8);
}

fn by_one_publisher(play: &mut Play, publisher: u8, size: usize) {
    (0..size).for_each(|turn| play.fresh((turn % 5) as u8, publisher));
}

/// Each place of a full table, by age, in blocks of one link each. Another
/// publisher gets the place.
fn each_place_of_64(play: &mut Play) {
    for (link, size) in [9, 6, 11, 7, 8, 10, 5, 8].into_iter().enumerate() {
        by_one_link(play, link as u8, size);
    }
    let mut left: Vec<usize> = (0..64).collect();
    while !left.is_empty() {
        let mut link = play.entries[0].front.0;
        if let Some(entry) = next_place(play, &mut left, |entry| entry.front.0) {
            play.free(entry, one_by(left.len()));
            play.fresh(entry.front.0, (entry.publisher.0 + 1) % 8);
            link = entry.front.0;
        }
        play.closed([link]);
        by_one_link(play, link, 64 - play.entries.len());
    }
    play.lost(0..8);
}

fn by_one_link(play: &mut Play, link: u8, size: usize) {
    for _ in 0..size {
        let least = (0..8).min_by_key(|&publisher| play.of(publisher).len());
        play.fresh(link, least.expect("eight publishers"));
    }
}

/// A place that is left and whose neighbours in age are of the same side, so
/// that one list shows them all; if there is none, a block has to move.
fn next_place(play: &Play, left: &mut Vec<usize>, side: fn(&Entry) -> u8) -> Option<Entry> {
    let listed_together = |&place: &usize| {
        let end = play.entries.len().min(place + 3);
        let around = &play.entries[place.saturating_sub(1)..end];
        around.iter().all(|entry| side(entry) == side(&around[0]))
    };
    let found = left.iter().position(listed_together)?;
    Some(play.entries[left.remove(found)])
}

/// The first and the last place, with the whole table in one list.
fn first_and_last_place_of_64(play: &mut Play) {
    for (turn, place) in [0, 63].into_iter().enumerate() {
        play.fill([8; 8], 1);
        play.free(play.entries[place], one_by(turn));
        if turn % 2 == 0 {
            play.fresh(0, 7);
        }
        play.closed([0]);
    }
}

/// A single request at a time, freed in each way.
fn one_after_another(play: &mut Play) {
    for turn in 0..24_u8 {
        play.fresh(turn % 3, turn % 8);
        play.free(play.in_slot(0), WAYS[usize::from(turn % 4)]);
        play.closed([turn % 3]);
        play.lost([turn % 8]);
    }
}
