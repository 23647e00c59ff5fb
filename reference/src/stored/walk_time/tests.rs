//! That the runs reach what they are stored for: their lines are the book's,
//! and a table that goes wrong with times gives other lines.

mod cuts;
mod mistake;
mod reach;
mod wrong;

use super::{push, Runs};
use crate::event::Event;
use crate::stored::walk_cases;
use crate::stored::walk_lines::{self, Run};
use crate::walk::walk_by;
use mistake::{mistakes, Mistake};
use wrong::Wrong;

fn runs() -> Vec<Run> {
    walk_lines::runs(push)
}

fn made() -> Vec<u8> {
    let mut made = Runs::default();
    push(&mut made);
    made.bytes
}

#[test]
fn the_lines_are_those_of_the_book() {
    walk_lines::assert_as_the_book(runs());
}

/// The output over all runs of a table with a mistake.
fn output_with(mistake: Mistake, runs: &[u8]) -> String {
    let output = walk_cases::output_by(runs, |first, mut events, lines| {
        let mut table = Wrong::fresh(first, mistake).ok().unwrap();
        let call = |event: Event, ends: &mut [i64]| table.call(event, ends);
        walk_by(call, &mut events, lines).unwrap();
    });
    String::from_utf8(output).unwrap()
}

#[test]
fn a_mistake_changes_lines_of_two_runs() {
    let made = made();
    let right = String::from_utf8(walk_cases::output(&made)).unwrap();
    // So what differs below is due to the mistake.
    assert!(output_with(Mistake::Nothing, &made) == right);
    for mistake in mistakes() {
        let wrong = output_with(mistake, &made);
        let runs = right.split("run ").zip(wrong.split("run "));
        let differ = runs.filter(|(right, wrong)| right != wrong).count();
        assert!(differ >= 2, "{mistake:?}: {differ}");
    }
}
