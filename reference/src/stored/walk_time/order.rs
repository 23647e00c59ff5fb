//! Those that run out are listed in the order of acceptance: not in that of
//! places, deadlines, peers or numbers.

use super::{list_rest, TOP};
use crate::generator::Generator;
use crate::stored::walk_play::{one_by, Case, Play};

pub const CASES: &[Case] = &[
    (1, places_used_again),
    (7, everything_falls),
    (TOP - 3, shuffled_deadlines),
    (1, what_stays_keeps_its_order),
];

/// Holes are filled by newer requests, then all run out.
fn places_used_again(play: &mut Play) {
    for round in 0..3 {
        let time = play.latest_time() + 100;
        for turn in 0..12 {
            play.fresh_by(turn % 5, turn % 8, time, 50);
        }
        for (turn, slot) in [0, 5, 6, 8, 11, 3].into_iter().enumerate() {
            play.free(play.in_slot(slot), one_by(turn + round));
        }
        for turn in 0..8 {
            play.fresh_by(4 - turn % 5, 7 - turn, time + 1, 49);
        }
        play.free(play.in_slot(0), one_by(round));
        play.fresh_by(2, 2, time, 40);
        play.run_out([time + 49, time + 50]);
    }
}

/// Deadlines, links, publishers and front numbers, each and all together.
fn everything_falls(play: &mut Play) {
    for falls in 0..5 {
        let time = play.latest_time() + 1000;
        for turn in 0..14 {
            let (down, up) = (13 - turn, turn);
            let which = |nth| if falls == nth || falls == 4 { down } else { up };
            let front = (which(0), (1 << 33) + i64::from(which(1)));
            let timeout = 100 + u32::from(which(3));
            play.ask_by(front, which(2) / 2, time, timeout);
        }
        play.run_out([time + 99, time + 106, time + 113]);
    }
}

/// In four steps, each of which takes some from all over the table.
fn shuffled_deadlines(play: &mut Play) {
    let mut generator = Generator::new(42);
    for size in [9, 30, 44] {
        let time = play.latest_time() + 1;
        for _ in 0..size {
            let (link, publisher) = (generator.below(7), generator.below(8));
            let timeout = 1 + generator.below(400) as u32;
            play.fresh_by(link as u8, publisher as u8, time, timeout);
        }
        (1..=4).for_each(|step| play.run_out([time + 100 * step]));
    }
}

/// Every second or third runs out, others take their places; lists of links,
/// publishers and further run-outs show that the rest is in order.
fn what_stays_keeps_its_order(play: &mut Play) {
    for step in [2, 3] {
        let time = play.latest_time() + 100;
        for turn in 0..24 {
            let timeout = if turn % step == 0 { 10 } else { 30 };
            play.fresh_by(turn % 4, turn % 5, time, timeout);
        }
        play.run_out([time + 10]);
        (0..6).for_each(|turn| play.fresh_by(turn % 4, turn, time, 21 + u32::from(turn % 2)));
        play.closed([1]);
        play.run_out([time + 31]);
        play.fresh_by(3, 3, 0, 0);
        play.lost([3]);
        play.run_out([time + 32]);
        list_rest(play);
    }
}
