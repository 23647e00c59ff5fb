//! The relay walk of document 01: events in, one line for each out.

use crate::event::{Answer, Event};
use crate::refusal::Refusal;
use crate::table::{End, Table, ROOM};
use std::io::{self, BufRead, Write};

/// Walks over the events of `input` until they end or one cannot be read.
///
/// Writes line by line: the output, too, is to be buffered.
pub fn walk(mut table: Table, input: &mut impl BufRead, output: &mut impl Write) -> io::Result<()> {
    walk_by(|event, ends| event.call(&mut table, ends), input, output)
}

/// The walk over whatever answers in place of a table.
pub fn walk_by(
    mut call: impl FnMut(Event, &mut [i64]) -> Result<Answer, Refusal>,
    input: &mut impl BufRead,
    output: &mut impl Write,
) -> io::Result<()> {
    // Room for every request, so 16 never comes.
    let mut ends = [0; 2 * ROOM];
    while let Some(event) = Event::read(input)? {
        let event = match event {
            Ok(event) => event,
            Err(refusal) => return write_refusal(output, refusal),
        };
        match call(event, &mut ends) {
            Ok(answer) => write_answer(output, answer, &ends)?,
            Err(refusal) => write_refusal(output, refusal)?,
        }
    }
    Ok(())
}

pub fn write_refusal(output: &mut impl Write, refusal: Refusal) -> io::Result<()> {
    writeln!(output, "no {}", refusal.number())
}

fn write_answer(output: &mut impl Write, answer: Answer, ends: &[i64]) -> io::Result<()> {
    match answer {
        Answer::Ask(number) => writeln!(output, "ask {number}"),
        Answer::Reply(front) => write_end(output, "reply", front),
        Answer::Cancel(publisher) => write_end(output, "cancel", publisher),
        Answer::Gone(side, count) => {
            write_drops(output, side.of("closed", "lost"), &ends[..2 * count])
        }
        Answer::RunOut(count) => write_drops(output, "out", &ends[..2 * count]),
    }
}

fn write_end(output: &mut impl Write, word: &str, (peer, number): End) -> io::Result<()> {
    writeln!(output, "{word} {peer} {number}")
}

fn write_drops(output: &mut impl Write, word: &str, ends: &[i64]) -> io::Result<()> {
    writeln!(output, "{word} {}", ends.len() / 2)?;
    for end in ends.chunks_exact(2) {
        writeln!(output, "drop {} {}", end[0], end[1])?;
    }
    Ok(())
}

#[cfg(test)]
mod tests {
    use super::*;

    fn lines(bytes: &[u8]) -> String {
        let mut output = Vec::new();
        walk(Table::fresh(1).unwrap(), &mut &bytes[..], &mut output).unwrap();
        String::from_utf8(output).unwrap()
    }

    #[test]
    fn no_events_no_lines() {
        assert_eq!(lines(&[]), "");
    }

    #[test]
    fn a_bad_event_stops_the_walk() {
        assert_eq!(lines(&[4, 0, 8, 4, 0]), "closed 0\nno 35\n");
        assert_eq!(lines(&[5, 0, 2, 0, 1]), "lost 0\nno 35\n");
        assert_eq!(lines(&[4, 0, 7, 0, 1]), "closed 0\nno 35\n");
    }

    #[test]
    fn a_gone_peer_prints_by_its_side() {
        let ask = [1, 3, 77, 0, 0, 0, 0, 0, 0, 0, 5];
        let closed = [&ask[..], &[4, 3]].concat();
        assert_eq!(lines(&closed), "ask 1\nclosed 1\ndrop 5 1\n");
        let lost = [&ask[..], &[5, 5]].concat();
        assert_eq!(lines(&lost), "ask 1\nlost 1\ndrop 3 77\n");
    }

    #[test]
    fn an_ask_by_prints_as_an_ask_and_a_run_out_prints_out() {
        let run_out = |time: u8| [7, time, 0, 0, 0, 0, 0, 0, 0];
        let ask_by = [
            6, 3, 77, 0, 0, 0, 0, 0, 0, 0, 5, 9, 0, 0, 0, 0, 0, 0, 0, 2, 0, 0, 0,
        ];
        let events = [&ask_by[..], &run_out(10), &run_out(11), &run_out(12)].concat();
        assert_eq!(lines(&events), "ask 1\nout 0\nout 1\ndrop 3 77\nout 0\n");
    }

    #[test]
    fn other_refusals_do_not() {
        assert_eq!(lines(&[4, 32, 5, 8, 5, 7]), "no 30\nno 30\nlost 0\n");
        let run_out = [7, 0, 0, 0, 0, 0, 0, 0, 64, 5, 7];
        assert_eq!(lines(&run_out), "no 30\nlost 0\n");
    }
}
