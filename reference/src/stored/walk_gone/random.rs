//! Random runs in which peers of both sides with the same small numbers come
//! and go, with many requests, few and none.

use super::TOP;
use crate::clock::Pace;
use crate::stored::walk_cases::Runs;
use crate::stored::walk_crowd::{Crowd, Habits, Step};
use crate::stored::walk_play::Way;
use crate::table::Side;

/// With few in flight only the first six count, most of them asks.
const STEPS: [(Step, u64); 10] = [
    (Step::Late, 60),
    (Step::InFlightAlready, 20),
    (Step::NoSuchPeerOrNumber, 30),
    (Step::Gone(Side::Front), 40),
    (Step::Gone(Side::Publisher), 50),
    (Step::Ask, 450),
    (Step::Free(Way::Reply), 80),
    (Step::Free(Way::Cancel), 80),
    (Step::Free(Way::Gone(Side::Front)), 80),
    (Step::Free(Way::Gone(Side::Publisher)), 80),
];

/// A run's first number, its links, and the publishers that get half of the
/// asks.
const RUNS: [(i64, u64, u64); 6] = [
    (1, 3, 3),
    (7, 8, 8),
    (TOP - 3, 8, 3),
    (1, 5, 2),
    (TOP - 3, 2, 8),
    (7, 32, 4),
];

const EVENTS: usize = 200;

pub fn push(runs: &mut Runs) {
    for (seed, (first, links, favourites)) in (600..).zip(RUNS) {
        let habits = Habits {
            seed,
            links,
            favourites,
            steps: &STEPS,
            enough: 10,
            if_few: 650,
            start: 0,
            pace: Pace::Stands,
        };
        runs.push(first, Crowd::new(first, habits).script(EVENTS));
    }
}
