//! Runs for requests that run out (document 02, A2): clocks of all sorts, with
//! deadlines, without them, and with requests that are overdue.

mod after;
mod clocks;
mod cuts;
mod limits;
mod none;
mod order;
mod overdue;
mod random;
mod refused;
#[cfg(test)]
mod tests;
mod whole;

use super::walk_cases::Runs;
use super::walk_play::{Case, Play};
use super::walk_scripts::Script;

const TOP: i64 = i64::MAX;

/// Front numbers start above the publisher numbers of runs that start low, so
/// that neither is the other by chance.
const BEFORE_FRONT_NUMBERS: i64 = 1000;

/// Each run ends with a record that is cut, so that every length of both kinds
/// occurs.
pub fn push(runs: &mut Runs) {
    let cases = [
        clocks::CASES,
        refused::CASES,
        limits::CASES,
        none::CASES,
        order::CASES,
        overdue::CASES,
        after::CASES,
        whole::CASES,
    ];
    let cases = cases.into_iter().flatten().map(script);
    let all = cases.chain(random::scripts());
    for ((first, mut script), cut) in all.zip(cuts::records().cycle()) {
        script.bytes.extend(cut);
        runs.push(first, script);
    }
}

fn script(&(first, case): &Case) -> (i64, Script) {
    let mut play = Play::new(first);
    play.count_from(BEFORE_FRONT_NUMBERS);
    case(&mut play);
    (first, play.script)
}

/// As `Play::fill`, all at one time; the timeouts take turns.
fn fill_by(play: &mut Play, loads: [usize; 8], time: u64, timeouts: &[u32]) {
    let mut timeouts = timeouts.iter().cycle();
    for turn in 0..16 * 8 {
        let publisher = (turn % 8) as u8;
        if play.of(publisher).len() < loads[turn % 8] {
            let link = ((turn + turn / 8) % 11) as u8;
            let timeout = timeouts.next().expect("at least one timeout");
            play.fresh_by(link, publisher, time, *timeout);
        }
    }
}

/// What is in flight is listed and freed.
fn list_rest(play: &mut Play) {
    play.lost((0..8).rev());
}
