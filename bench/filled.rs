//! One call on a table that holds 48 requests. Links, publishers and the call are drawn before the time is taken. Each
//! call finds a table of its own, filled just before for a few calls at a time, so that none is found in a slower cache
//! than in use.

use super::two_maps::TwoMaps;
use super::{by_maps, ours, second, time, Answer, Second, ALL_ENDS};
use reference::event::Event;
use relay::{PublisherNumber, Table};

pub const IN_FLIGHT: usize = 48;
/// A round fills so many tables, then makes the call on each of them, and does so as many times.
const TABLES: usize = 8;
const TIMES: usize = 250;
const ROUNDS: usize = 51;

/// What fills a table, and the call that follows.
pub struct Work {
    pub fill: Vec<Event>,
    pub call: Event,
}

/// A table that is filled by its own calls.
fn filled<T>(mut table: T, work: &Work, call: impl Fn(&mut T, Event, &mut [i64]) -> Answer) -> T {
    for &event in &work.fill {
        assert!(call(&mut table, event, &mut []).0 > 0, "{event:?} is refused");
    }
    table
}

/// Nanoseconds a call.
fn round<T>(works: &[Work], fresh: impl Fn() -> T, call: impl Fn(&mut T, Event, &mut [i64]) -> Answer) -> f64 {
    let mut ends = [0; ALL_ENDS];
    let mut sum = 0.0;
    for works in works.chunks(TABLES) {
        let mut tables: Vec<T> = works.iter().map(|work| filled(fresh(), work, &call)).collect();
        let mut tables = tables.iter_mut();
        let calls: Vec<Event> = works.iter().map(|work| work.call).collect();
        sum += time(&calls, |event| call(tables.next().expect("a table for each"), event, &mut ends));
    }
    sum / TIMES as f64
}

fn our_table() -> Table {
    Table::new(PublisherNumber(1)).expect("1 is a first number")
}

fn second_table() -> Second {
    Second::fresh(1).expect("1 is a first number")
}

fn maps() -> TwoMaps {
    TwoMaps::new(1).expect("1 is a first number")
}

/// All three answer what they should, and write the same.
fn check(work: &Work, answer: i64) {
    let mut ends = [[0; ALL_ENDS]; 3];
    let answers = [
        ours(&mut filled(our_table(), work, ours), work.call, &mut ends[0]),
        second(&mut filled(second_table(), work, second), work.call, &mut ends[1]),
        by_maps(&mut filled(maps(), work, by_maps), work.call, &mut ends[2]),
    ];
    assert_eq!(answers, [answers[0]; 3], "{:?}", work.call);
    assert_eq!(ends, [ends[0]; 3], "{:?}", work.call);
    assert_eq!(answers[0].0, answer, "{:?}", work.call);
}

/// Ours, the second program and two hash maps, in rounds by turns; sorted.
fn measured(works: &[Work]) -> [Vec<f64>; 3] {
    let mut rounds = [const { Vec::new() }; 3];
    for _ in 0..ROUNDS {
        rounds[0].push(round(works, our_table, ours));
        rounds[1].push(round(works, second_table, second));
        rounds[2].push(round(works, maps, by_maps));
    }
    for rounds in &mut rounds {
        rounds.sort_by(f64::total_cmp);
    }
    rounds
}

pub fn print_head(first: &str, maps: &str) {
    print!("| {first} |");
    for which in ["shortest", "median"] {
        print!(" ours, {which} | second program, {which} | {maps}, {which} |");
    }
    println!("\n|---|---|---|---|---|---|---|");
}

/// A row of calls that are drawn, and what each is to answer.
pub fn print_row(name: &str, mut draw: impl FnMut() -> (Work, i64)) {
    let works: Vec<Work> = (0..TABLES * TIMES)
        .map(|_| {
            let (work, answer) = draw();
            check(&work, answer);
            work
        })
        .collect();
    let [ours, second, maps] = measured(&works);
    print!("| {name} |");
    for at in [0, ROUNDS / 2] {
        let (ours, second, maps) = (ours[at], second[at], maps[at]);
        print!(" {ours:.0} | {second:.0} ({:.2}) | {maps:.0} ({:.2}) |", second / ours, maps / ours);
    }
    println!();
}
