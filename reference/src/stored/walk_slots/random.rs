//! Long random runs in which 48 to 64 requests are in flight most of the time,
//! freed in all four ways and in no order.

use super::TOP;
use crate::clock::Pace;
use crate::stored::walk_cases::Runs;
use crate::stored::walk_crowd::{Crowd, Habits, Step};
use crate::stored::walk_play::Way;
use crate::table::Side;

/// With few in flight only the first four count, nearly all of them asks.
const STEPS: [(Step, u64); 9] = [
    (Step::Late, 20),
    (Step::InFlightAlready, 15),
    (Step::NoSuchPeerOrNumber, 10),
    (Step::Ask, 255),
    (Step::Free(Way::Reply), 240),
    (Step::Free(Way::Cancel), 240),
    (Step::Free(Way::Gone(Side::Front)), 25),
    (Step::Free(Way::Gone(Side::Publisher)), 10),
    (Step::Ask, 185),
];

/// A run's first number, its count of events, its links and its favourites:
/// half of the asks are for publishers below that.
pub const RUNS: [(i64, usize, u64, u64); 5] = [
    (1, 550, 32, 8),
    (1, 550, 6, 8),
    (TOP - 40, 470, 12, 3),
    (1 << 40, 470, 3, 5),
    (TOP - 1, 470, 32, 2),
];

pub fn push(runs: &mut Runs) {
    for (seed, (first, count, links, favourites)) in (500..).zip(RUNS) {
        let habits = Habits {
            seed,
            links,
            favourites,
            steps: &STEPS,
            enough: 52,
            if_few: 300,
            start: 0,
            pace: Pace::Stands,
        };
        runs.push(first, Crowd::new(first, habits).script(count));
    }
}
