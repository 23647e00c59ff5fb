//! Runs for a table that keeps its requests in 64 fixed slots with masks
//! (document 02, A12). A request takes the lowest free slot, so after a free
//! the slots no longer tell the order of acceptance; and what a freed slot
//! still holds must not be found.

mod edges;
mod full;
mod order;
mod random;
mod same;
mod stale;
#[cfg(test)]
mod tests;

use super::walk_cases::Runs;
use super::walk_play::push_case;

const TOP: i64 = i64::MAX;

pub fn push(runs: &mut Runs) {
    for loads in full::LOADS {
        push_case(runs, 1, |play| full::one_freed(play, loads));
    }
    let cases = [
        order::CASES,
        full::CASES,
        same::CASES,
        stale::CASES,
        edges::CASES,
    ];
    for &(first, case) in cases.into_iter().flatten() {
        push_case(runs, first, case);
    }
    random::push(runs);
}
