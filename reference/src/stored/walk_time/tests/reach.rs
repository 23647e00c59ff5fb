//! What happens in the runs, read off their events and lines.

use super::*;
use crate::stored::walk_time::TOP;
use crate::table::book::Book;
use crate::table::ROOM;

#[test]
fn every_refusal_and_the_longest_lists_occur() {
    let runs = runs();
    let lines = runs.iter().flat_map(|run| &run.events);
    let count = |text: &str| lines.clone().filter(|(_, own)| own[0] == text).count();
    for (refusal, least) in [(12, 10), (30, 100), (31, 20), (32, 20), (33, 50), (34, 50)] {
        let found = count(&format!("no {refusal}"));
        assert!(found >= least, "no {refusal}: {found}");
    }
    assert_eq!(count("no 16") + count("no 35"), 0);
    for (line, least) in [("out 0", 300), ("out 1", 100), ("out 16", 2), ("out 64", 2)] {
        assert!(count(line) >= least, "{line}: {}", count(line));
    }
}

#[test]
fn each_row_refuses_a_new_ask() {
    let mut met = [0; 256];
    for (event, lines) in runs().iter().flat_map(|run| &run.events) {
        if let (Event::AskBy(..), Some(number)) = (event, lines[0].strip_prefix("no ")) {
            met[number.parse::<usize>().unwrap()] += 1;
        }
    }
    for refusal in [12, 30, 31, 32, 33] {
        assert!(met[refusal] > 5, "{refusal}: {}", met[refusal]);
    }
}

#[test]
fn the_first_numbers_are_low_and_near_the_largest() {
    let runs = runs();
    for first in [1, 7, TOP - 3] {
        assert!(runs.iter().filter(|run| run.first == first).count() > 8);
    }
}

/// How often the time of an accepted call is before the latest time seen, the
/// same, a little later and much later.
#[test]
fn clocks_go_back_stand_run_on_and_jump() {
    let mut moves = [[0; 4]; 2];
    for run in runs() {
        let mut book = Book::fresh(run.first).ok().unwrap();
        for (event, lines) in run.events {
            let (call, time) = match event {
                Event::AskBy(_, _, _, time, _) => (0, time),
                Event::RunOut(time) => (1, time),
                _ => (0, u64::MAX),
            };
            let latest = book.latest_time_seen;
            if time < 1 << 62 && !lines[0].starts_with("no ") {
                moves[call][match time {
                    _ if time < latest => 0,
                    _ if time == latest => 1,
                    _ if time < latest + 1000 => 2,
                    _ => 3,
                }] += 1;
            }
            let _ = book.call(event, &mut [0; 2 * ROOM]);
        }
    }
    for moves in moves {
        let least = moves.iter().zip([100, 100, 150, 10]);
        assert!(
            least.clone().all(|(&count, least)| count > least),
            "{moves:?}"
        );
    }
}

/// Full tables, loads of 16, and every load at 8, while some are overdue.
#[test]
fn tables_are_full_while_requests_are_overdue() {
    let [mut full, mut hung, mut even] = [0; 3];
    for run in runs() {
        let mut book = Book::fresh(run.first).ok().unwrap();
        for (event, _) in run.events {
            let _ = book.call(event, &mut [0; 2 * ROOM]);
            let due = |at: Option<u64>| at.is_some_and(|at| at <= book.latest_time_seen);
            if book.entries.iter().any(|entry| due(entry.deadline)) {
                full += usize::from(book.entries.len() == ROOM);
                hung += usize::from((0..8).any(|publisher| book.load(publisher) == 16));
                even += usize::from((0..8).all(|publisher| book.load(publisher) == 8));
            }
        }
    }
    assert!(full > 20 && hung > 20 && even > 5, "{full} {hung} {even}");
}
