//! Stored runs taken apart again for tests: each event with its lines.

use super::records::Records;
use super::walk_cases::{self, Runs};
use crate::event::{Answer, Event};
use crate::refusal::Refusal;
use crate::table::book::Book;
use crate::table::ROOM;

pub struct Run {
    pub first: i64,
    /// Each with its line, and the drop lines behind it; but for a last one
    /// that is cut.
    pub events: Vec<(Event, Vec<String>)>,
}

/// The runs that `push` adds.
pub fn runs(push: impl Fn(&mut Runs)) -> Vec<Run> {
    let mut made = Runs::default();
    push(&mut made);
    let text = String::from_utf8(walk_cases::output(&made.bytes)).unwrap();
    let mut lines = text.lines().map(str::to_string).peekable();
    let mut records = Records(&made.bytes);
    let mut runs = Vec::new();
    while !records.0.is_empty() {
        let first = records.i64();
        let mut bytes = records.run();
        assert_eq!(lines.next(), Some(format!("run {first}")));
        let mut events = Vec::new();
        while let Some(event) = Event::read(&mut bytes).unwrap() {
            let mut own = vec![lines.next().unwrap()];
            let Ok(event) = event else {
                assert_eq!(own[0], "no 35");
                break;
            };
            own.extend(std::iter::from_fn(|| {
                lines.next_if(|line| line.starts_with("drop "))
            }));
            events.push((event, own));
        }
        runs.push(Run { first, events });
    }
    assert_eq!(lines.next(), None);
    runs
}

/// The lines of an answer, written here once more and not by the walk.
fn lines_of(answer: Result<Answer, Refusal>, ends: &[i64]) -> Vec<String> {
    let (word, count) = match answer {
        Ok(Answer::Ask(number)) => return vec![format!("ask {number}")],
        Ok(Answer::Reply((link, number))) => return vec![format!("reply {link} {number}")],
        Ok(Answer::Cancel((publisher, number))) => {
            return vec![format!("cancel {publisher} {number}")];
        }
        Ok(Answer::Gone(side, count)) => (side.of("closed", "lost"), count),
        Ok(Answer::RunOut(count)) => ("out", count),
        Err(refusal) => return vec![format!("no {}", refusal.number())],
    };
    let drop = |end: &[i64]| format!("drop {} {}", end[0], end[1]);
    let mut lines = vec![format!("{word} {count}")];
    lines.extend(ends.chunks_exact(2).take(count).map(drop));
    lines
}

pub fn assert_as_the_book(runs: Vec<Run>) {
    for run in runs {
        let mut book = Book::fresh(run.first).ok().unwrap();
        for (event, lines) in run.events {
            let mut ends = [0; 2 * ROOM];
            let answer = book.call(event, &mut ends);
            assert_eq!(lines, lines_of(answer, &ends), "{event:?}");
        }
    }
}
