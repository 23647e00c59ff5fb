//! Every run ends with a record of kind 6 or 7 that is cut.

use super::*;
use crate::numbers::{read_i64, read_u32};
use crate::stored::walk_time::cuts::{records, EVENTS};

/// The first number and the events of each run.
fn scripts(mut runs: &[u8]) -> Vec<(i64, Vec<u8>)> {
    let mut scripts = Vec::new();
    while !runs.is_empty() {
        let (first, m) = (read_i64(runs, 0), read_u32(runs, 8) as usize);
        scripts.push((first, runs[12..12 + m].to_vec()));
        runs = &runs[12 + m..];
    }
    scripts
}

/// The cut record at the end of a run's events.
fn tail(mut events: &[u8]) -> Vec<u8> {
    loop {
        let rest = events;
        match Event::read(&mut events).unwrap() {
            Some(Ok(_)) => {}
            Some(Err(_)) => return rest.to_vec(),
            None => panic!("the last record is whole"),
        }
    }
}

fn lines(first: i64, mut events: &[u8]) -> Vec<u8> {
    let (mut table, mut lines) = (crate::table::Table::fresh(first).unwrap(), Vec::new());
    let call = |event: Event, ends: &mut [i64]| event.call(&mut table, ends);
    walk_by(call, &mut events, &mut lines).unwrap();
    lines
}

#[test]
fn each_length_of_both_kinds_occurs() {
    let tails: Vec<Vec<u8>> = scripts(&made())
        .iter()
        .map(|(_, events)| tail(events))
        .collect();
    for (kind, longest) in [(6, 22), (7, 8)] {
        for length in 1..=longest {
            let is_there = |tail: &Vec<u8>| tail[0] == kind && tail.len() == length;
            assert!(tails.iter().any(is_there), "{kind} {length}");
        }
    }
    assert_eq!(records().count(), 30);
}

/// The last line is `no 35`, not what a reader prints that takes zeros for the
/// missing bytes, nor nothing.
#[test]
fn a_cut_record_read_otherwise_changes_lines() {
    for (first, events) in scripts(&made()) {
        let right = lines(first, &events);
        assert!(right.ends_with(b"\nno 35\n"));
        let tail = tail(&events);
        let mut whole = Vec::new();
        EVENTS[usize::from(tail[0] == 7)].encode(&mut whole);
        assert!(tail.len() < whole.len() && whole.starts_with(&tail));

        let mut filled = events.clone();
        filled.resize(events.len() + whole.len() - tail.len(), 0);
        assert!(lines(first, &filled) != right);
        assert!(!lines(first, &filled).ends_with(b"no 35\n"));
        let silent = &events[..events.len() - tail.len()];
        assert!(lines(first, silent) != right);
    }
}
