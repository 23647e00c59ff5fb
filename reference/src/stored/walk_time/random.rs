//! Random runs, each by a clock of its own, with tables nearly empty and full.

use super::TOP;
use crate::clock::{Pace, LARGEST_TIME};
use crate::stored::walk_crowd::{Crowd, Habits, Step};
use crate::stored::walk_play::Way;
use crate::stored::walk_scripts::Script;
use crate::table::Side;

/// With few in flight only the first six count, most of them asks.
const STEPS: [(Step, u64); 10] = [
    (Step::Late, 40),
    (Step::InFlightAlready, 30),
    (Step::NoSuchPeerOrNumber, 30),
    (Step::RunOut, 80),
    (Step::Ask, 70),
    (Step::AskBy, 400),
    (Step::Free(Way::Reply), 70),
    (Step::Free(Way::Cancel), 70),
    (Step::Free(Way::Gone(Side::Front)), 15),
    (Step::Free(Way::Gone(Side::Publisher)), 10),
];

/// A run's first number, its links, the publishers that get half of the asks,
/// where its clock starts, and how that moves.
const RUNS: [(i64, u64, u64, u64, Pace); 6] = [
    (1, 3, 2, 0, Pace::RunsOn),
    (TOP - 3, 8, 8, (1 << 32) - 300, Pace::GoesBack),
    (7, 32, 3, 1 << 40, Pace::Jumps),
    (1, 5, 1, (1 << 31) - 100, Pace::Any),
    (TOP - 3, 6, 4, LARGEST_TIME - 400, Pace::Any),
    (7, 4, 8, 9, Pace::GoesBack),
];

const EVENTS: usize = 300;

pub fn scripts() -> impl Iterator<Item = (i64, Script)> {
    let script = |(seed, (first, links, favourites, start, pace))| {
        let habits = Habits {
            seed,
            links,
            favourites,
            steps: &STEPS,
            enough: 20,
            if_few: 650,
            start,
            pace,
        };
        (first, Crowd::new(first, habits).script(EVENTS))
    };
    (700..).zip(RUNS).map(script)
}
