//! That the runs reach what they are stored for: their lines are the book's,
//! and a table that goes wrong for a gone peer gives other lines.

mod mistake;
mod wrong;

use super::{push, random, Runs, Side, TOP};
use crate::event::Event;
use crate::stored::walk_cases;
use crate::stored::walk_lines::{self, Run};
use crate::table::book::{Book, Entry};
use crate::table::ROOM;
use crate::walk::walk_by;
use mistake::{Mistake, MISTAKES};
use wrong::Wrong;

fn runs() -> Vec<Run> {
    walk_lines::runs(push)
}

#[test]
fn the_lines_are_those_of_the_book() {
    walk_lines::assert_as_the_book(runs());
}

#[test]
fn both_sides_with_every_number() {
    let (mut refused, mut freed) = ([[0; 256]; 2], [[0; 256]; 2]);
    for (event, lines) in runs().iter().flat_map(|run| &run.events) {
        if let Event::Gone(side, number) = event {
            let (side, number) = (side.of(0, 1), usize::from(*number));
            refused[side][number] += usize::from(lines[0] == "no 30");
            freed[side][number] += lines.len() - 1;
        }
    }
    for (side, peers) in [32, 8].into_iter().enumerate() {
        for number in 0..256 {
            let within = number < peers;
            assert_eq!(refused[side][number] == 0, within, "{side} {number}");
            assert_eq!(freed[side][number] > 0, within, "{side} {number}");
        }
    }
}

#[test]
fn every_refusal_and_the_longest_lists_occur() {
    let runs = runs();
    let lines = runs.iter().flat_map(|run| &run.events);
    let count = |text: &str| lines.clone().filter(|(_, own)| own[0] == text).count();
    for refusal in [12, 30, 31, 32, 33, 34] {
        assert!(count(&format!("no {refusal}")) > 5, "no {refusal}");
    }
    assert_eq!(count("no 16") + count("no 35"), 0);
    assert!(count("closed 0") > 50 && count("lost 0") > 50);
    assert!(count("closed 64") > 1 && count("lost 16") > 3);
}

#[test]
fn the_first_numbers_are_low_and_near_the_largest() {
    let runs = runs();
    for first in [1, 7, TOP - 3] {
        assert!(runs.iter().filter(|run| run.first == first).count() > 5);
    }
}

/// For each side: how often a peer is gone while the other side's peer with
/// its number has requests as well, and how often the two share one.
fn meetings(runs: Vec<Run>) -> [(usize, usize); 2] {
    let mut met = [(0, 0); 2];
    for run in runs {
        let mut book = Book::fresh(run.first).ok().unwrap();
        for (event, _) in run.events {
            if let Event::Gone(side, number) = event {
                let link = |entry: &Entry| entry.link == number;
                let publisher = |entry: &Entry| entry.publisher == number;
                let entries = || book.entries.iter();
                let shared = entries().any(|entry| link(entry) && publisher(entry));
                let (both, with_each_other) = &mut met[side.of(0, 1)];
                *both += usize::from(entries().any(link) && entries().any(publisher));
                *with_each_other += usize::from(shared);
            }
            let _ = book.call(event, &mut [0; 2 * ROOM]);
        }
    }
    met
}

#[test]
fn the_same_number_is_in_flight_on_both_sides() {
    for (runs, least) in [(runs(), 80), (walk_lines::runs(random::push), 40)] {
        for (both, shared) in meetings(runs) {
            assert!(both >= least && shared >= least / 4, "{both} {shared}");
        }
    }
}

/// The output over all runs of a table with a mistake on one side.
fn output_with(mistake: Mistake, side: Side, runs: &[u8]) -> String {
    let output = walk_cases::output_by(runs, |first, mut events, lines| {
        let mut table = Wrong::fresh(first, mistake, side).ok().unwrap();
        let call = |event: Event, ends: &mut [i64]| table.call(event, ends);
        walk_by(call, &mut events, lines).unwrap();
    });
    String::from_utf8(output).unwrap()
}

#[test]
fn a_mistake_on_either_side_changes_lines() {
    let mut made = Runs::default();
    push(&mut made);
    let right = String::from_utf8(walk_cases::output(&made.bytes)).unwrap();
    for side in Side::BOTH {
        // So what differs below is due to the mistake.
        assert!(output_with(Mistake::Nothing, side, &made.bytes) == right);
        for mistake in MISTAKES {
            let wrong = output_with(mistake, side, &made.bytes);
            let runs = right.split("run ").zip(wrong.split("run "));
            let differ = runs.filter(|(right, wrong)| right != wrong).count();
            assert!(differ >= 2, "{side:?} {mistake:?}: {differ}");
        }
    }
}
