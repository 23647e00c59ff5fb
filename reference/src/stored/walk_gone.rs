//! Runs for the one call that stands for a gone peer of either side (document
//! 02, A4). Links and publishers with the same number have requests at the
//! same time, so that no side can stand in for the other.

mod after;
mod extremes;
mod limits;
mod order;
mod random;
mod sides;
#[cfg(test)]
mod tests;
mod whole;

use super::walk_cases::Runs;
use super::walk_play::{push_case, Play};
use crate::table::Side;

const TOP: i64 = i64::MAX;

/// Front numbers start above the publisher numbers of runs that start low, so
/// that neither is the other by chance.
const BEFORE_FRONT_NUMBERS: i64 = 1000;

pub fn push(runs: &mut Runs) {
    let cases = [
        sides::CASES,
        limits::CASES,
        order::CASES,
        after::CASES,
        whole::CASES,
        extremes::CASES,
    ];
    for &(first, case) in cases.into_iter().flatten() {
        push_case(runs, first, |play| {
            play.count_from(BEFORE_FRONT_NUMBERS);
            case(play);
        });
    }
    random::push(runs);
}

/// A request of the peer `own` on `side` with the peer `other` on the other.
fn fresh_between(play: &mut Play, side: Side, own: u8, other: u8) {
    play.fresh(side.of(own, other), side.of(other, own));
}
