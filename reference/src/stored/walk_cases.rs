//! The walk's stored input and output: document 01's example for the program
//! itself, and many runs over fresh tables for the walk check.
//!
//! A run is its first number (8 bytes, signed) and a length m (4 bytes), then
//! m bytes of events. It gives the line `run N`, then the lines of the walk
//! over the events, or only `no 30` if no table starts at N.

use super::walk_gone;
use super::walk_scripts as scripts;
use super::walk_scripts::Script;
use super::walk_slots;
use super::walk_time;
use crate::event::Event;
use crate::numbers::{read_i64, read_u32};
use crate::table::{Side, Table, ROOM};
use crate::traffic::{Profile, Traffic, CROWDED, MIXED, ROUGH};
use crate::walk::{walk, write_refusal};

const TOP: i64 = i64::MAX;

pub fn example_input() -> Vec<u8> {
    scripts::example().bytes
}

pub fn example_output(events: &[u8]) -> Vec<u8> {
    let mut lines = Vec::new();
    walk_run(1, events, &mut lines);
    lines
}

pub fn input() -> Vec<u8> {
    let mut runs = Runs::default();
    for first in [1, 7, TOP, TOP - 1, TOP - 7] {
        runs.push(first, scripts::example());
        runs.push(first, scripts::loads(first));
        runs.push(first, scripts::even_loads(first));
        runs.push(first, scripts::refusals(first));
        runs.push(first, scripts::late(first));
        runs.push(first, scripts::drops(first));
        runs.push(first, scripts::wrapping(first));
    }
    for first in [0, -1, -5, i64::MIN] {
        runs.push(first, scripts::example());
        runs.push(first, Script::default());
    }
    runs.push(1, Script::default());
    bad_events(&mut runs);
    random_runs(&mut runs);
    runs.push(-5, scripts::example());
    walk_slots::push(&mut runs);
    runs.push(-5, scripts::example());
    walk_gone::push(&mut runs);
    runs.push(-5, scripts::example());
    walk_time::push(&mut runs);
    // The last run is one that is skipped, so that its end is the input's.
    runs.push(-5, scripts::example());
    runs.bytes
}

/// Every unknown kind, and every kind cut at every length. Kinds 6 and 7 were
/// unknown when these were stored; their runs stay, and now go on.
fn bad_events(runs: &mut Runs) {
    for kind in (0..=0).chain(6..=255) {
        runs.push(1, scripts::unknown_kind(kind));
    }
    for event in [
        Event::Ask(1, 2, 3),
        Event::Reply(0, 7),
        Event::Cancel(3, 77),
        Event::Gone(Side::Front, 3),
        Event::Gone(Side::Publisher, 0),
    ] {
        let whole = Script::default().then(event).bytes.len();
        for length in 1..whole {
            runs.push(7, scripts::cut(event, length));
        }
    }
}

fn random_runs(runs: &mut Runs) {
    let firsts = [1, 7, TOP, TOP - 1, TOP - 7, 1 << 32];
    for (turn, first) in firsts.into_iter().enumerate() {
        let seed = 100 + 3 * turn as u64;
        runs.push(first, random(seed, first, CROWDED, 1000));
        runs.push(first, random(seed + 1, first, MIXED, 800));
        runs.push(first, random(seed + 2, first, ROUGH, 450));
    }
}

fn random(seed: u64, first: i64, profile: Profile, count: usize) -> Script {
    let mut traffic = Traffic::new(seed, profile);
    let mut table = Table::fresh(first).expect("a first number of at least 1");
    let mut ends = [0; 2 * ROOM];
    (0..count).fold(Script::default(), |script, _| {
        let event = traffic.event(&table);
        // Refused or not: the walk will find the same.
        let _ = event.call(&mut table, &mut ends);
        script.then(event)
    })
}

#[derive(Default)]
pub struct Runs {
    pub bytes: Vec<u8>,
}

impl Runs {
    pub fn push(&mut self, first: i64, events: Script) {
        self.bytes.extend(first.to_le_bytes());
        self.bytes.extend((events.bytes.len() as u32).to_le_bytes());
        self.bytes.extend(events.bytes);
    }
}

pub fn output(runs: &[u8]) -> Vec<u8> {
    output_by(runs, walk_run)
}

/// The lines of the runs, those of each by `walk_run`: it gets the run's first
/// number and its events.
pub fn output_by(mut runs: &[u8], mut walk_run: impl FnMut(i64, &[u8], &mut Vec<u8>)) -> Vec<u8> {
    let mut lines = Vec::new();
    while !runs.is_empty() {
        let first = read_i64(runs, 0);
        let m = read_u32(runs, 8) as usize;
        let (events, others) = runs[12..].split_at(m);
        lines.extend(format!("run {first}\n").bytes());
        walk_run(first, events, &mut lines);
        runs = others;
    }
    lines
}

fn walk_run(first: i64, mut events: &[u8], lines: &mut Vec<u8>) {
    match Table::fresh(first) {
        Ok(table) => walk(table, &mut events, lines),
        Err(refusal) => write_refusal(lines, refusal),
    }
    .expect("memory can be read and written");
}

#[cfg(test)]
mod tests {
    use super::*;
    use crate::checksum::CRC32;

    /// What was stored at some time: size and CRC-32 of input and output, and
    /// the output's lines.
    struct Stored {
        input: (usize, u32),
        output: (usize, u32),
        lines: usize,
    }

    /// Before the table had slots and masks, before one call stood for both
    /// sides of a gone peer, and before requests ran out (document 02, A12, A4
    /// and A2).
    const OLD: [Stored; 3] = [
        Stored {
            input: (218_362, 0x466A_30A0),
            output: (274_858, 0x5417_D2F6),
            lines: 25_613,
        },
        Stored {
            input: (338_511, 0xC525_CFD8),
            output: (454_852, 0x6F30_63F6),
            lines: 43_487,
        },
        Stored {
            input: (377_620, 0x7B54_61C7),
            output: (523_621, 0x2A6D_856C),
            lines: 50_950,
        },
    ];

    const EXAMPLE: &str = "ask 1\nno 31\nask 2\nreply 4 77\nno 34\ncancel 0 1\n\
                           ask 3\nno 12\nlost 1\ndrop 3 77\nclosed 0\n";

    #[test]
    fn the_example_of_document_01() {
        let output = example_output(&example_input());
        assert_eq!(String::from_utf8(output).unwrap(), EXAMPLE);
    }

    #[test]
    fn every_refusal_of_the_walk_occurs() {
        let text = String::from_utf8(output(&input())).unwrap();
        let count = |line: &str| text.lines().filter(|&other| other == line).count();
        for (refusal, least) in [(12, 50), (30, 100), (31, 50), (32, 50), (33, 50), (34, 50)] {
            assert!(count(&format!("no {refusal}")) >= least, "no {refusal}");
        }
        // 249 unknown kinds, one more where kind 7 was one, 30 cut records and
        // the last ones of the runs with times, and no other.
        let mut with_times = Runs::default();
        walk_time::push(&mut with_times);
        let cut = runs_in(&with_times.bytes);
        assert_eq!(count("no 35"), 249 + 1 + 30 + cut);
        assert_eq!(count("no 16"), 0);
        assert!(count("closed 64") > 0 && count("lost 16") > 0);
        assert!(count("closed 0") > 0 && count("lost 0") > 0);
        assert!(count(&format!("ask {TOP}")) > 0);
    }

    fn lines(text: &[u8]) -> usize {
        text.iter().filter(|&&byte| byte == b'\n').count()
    }

    fn runs_in(input: &[u8]) -> usize {
        let mut count = 0;
        output_by(input, |_, _, _| count += 1);
        count
    }

    /// As the output was while kinds 6 and 7 were unknown: two runs, each
    /// stored for one of them, stopped there.
    fn output_before_times(input: &[u8]) -> Vec<u8> {
        let unknown = [6, 7].map(|kind| scripts::unknown_kind(kind).bytes);
        output_by(input, |first, events, lines| {
            if unknown.iter().any(|bytes| bytes == events) {
                lines.extend(b"ask 1\nno 35\n");
            } else {
                walk_run(first, events, lines);
            }
        })
    }

    /// The bytes that stood behind an unknown kind are now its body: those
    /// behind 6 are just one, behind 7 comes kind 0.
    #[test]
    fn what_kinds_6_and_7_print_where_they_were_unknown() {
        for (kind, expected) in [(6, "ask 1\nask 1\n"), (7, "ask 1\nout 0\nno 35\n")] {
            let mut lines = Vec::new();
            walk_run(1, &scripts::unknown_kind(kind).bytes, &mut lines);
            assert_eq!(String::from_utf8(lines).unwrap(), expected);
        }
    }

    #[test]
    fn the_old_runs_stay_in_front() {
        let (input, output) = (input(), output_before_times(&input()));
        for old in &OLD {
            for (bytes, (size, sum)) in [(&input, old.input), (&output, old.output)] {
                assert_eq!(CRC32.of(&bytes[..size]), sum);
            }
            let (before, after) = output.split_at(old.output.0);
            assert_eq!(lines(before), old.lines);
            assert!(after.starts_with(b"run 1\n"));
            // No changed rule: the old input alone gives the old output.
            assert!(output_before_times(&input[..old.input.0]) == before);
        }
    }

    #[test]
    fn what_was_added_is_within_the_agreed_size() {
        let (input, output) = (input(), output(&input()));
        let [.., newest] = &OLD;
        let bytes = input.len() - newest.input.0;
        assert!(bytes <= 120_000, "{bytes}");
        let lines = lines(&output) - newest.lines;
        assert!(lines <= 10_000, "{lines}");
    }

    #[test]
    fn each_run_is_within_the_agreed_size() {
        let input = input();
        let mut rest = &input[..];
        while !rest.is_empty() {
            let m = read_u32(rest, 8) as usize;
            assert!(m <= 60_000, "{m}");
            rest = &rest[12 + m..];
        }
    }
}
