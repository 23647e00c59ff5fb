//! The long stored input of the walk: twice what the program's buffer of
//! 65,536 bytes holds, with text several times as long. So records lie across
//! reads, and what one read brought takes several writes.

use crate::event::Event;
use crate::table::{Side, Table, ROOM};
use crate::traffic::{Profile, Traffic, MIXED, ROUGH};
use crate::walk::walk;

pub fn input() -> Vec<u8> {
    let mut events = Events::new();
    // Eleven bytes in, mostly six out: the events overrun their buffer first.
    for turn in 0..6_500 {
        events.push(Event::Ask((turn % 32) as u8, turn, (turn % 8) as u8));
    }
    events.random(200, MIXED, 2_000);
    // Two bytes in, nine out: now the text does.
    for turn in 0..10_000u32 {
        events.push(Event::Gone(Side::Front, (turn % 32) as u8));
        events.push(Event::Gone(Side::Publisher, (turn % 8) as u8));
    }
    events.random(201, ROUGH, 1_000);
    for round in 0..60 {
        events.full_table(round);
    }
    events.bytes
}

pub fn output(mut events: &[u8]) -> Vec<u8> {
    let mut lines = Vec::new();
    walk(fresh(), &mut events, &mut lines).expect("memory can be read and written");
    lines
}

fn fresh() -> Table {
    Table::fresh(1).expect("1 is a first number")
}

/// The bytes so far, and the table that they lead to.
struct Events {
    bytes: Vec<u8>,
    table: Table,
}

impl Events {
    fn new() -> Events {
        Events {
            bytes: Vec::new(),
            table: fresh(),
        }
    }

    fn push(&mut self, event: Event) {
        // Refused or not: the walk will find the same.
        let _ = event.call(&mut self.table, &mut [0; 2 * ROOM]);
        event.encode(&mut self.bytes);
    }

    fn random(&mut self, seed: u64, profile: Profile, count: usize) {
        let mut traffic = Traffic::new(seed, profile);
        for _ in 0..count {
            self.push(traffic.event(&self.table));
        }
    }

    /// Eight requests for each publisher, with long front numbers; then all
    /// are dropped, by their links or by their publishers.
    fn full_table(&mut self, round: u8) {
        for number in 0..8 {
            for publisher in 0..8 {
                let long = i64::MIN + i64::from(round) * 8 + number;
                self.push(Event::Ask(publisher, long, publisher));
            }
        }
        let side = match round % 2 {
            0 => Side::Publisher,
            _ => Side::Front,
        };
        for number in 0..8 {
            self.push(Event::Gone(side, number));
        }
    }
}

#[cfg(test)]
mod tests {
    use super::*;

    const BUFFER: usize = 65_536;

    /// The sizes of each event's record and of its lines.
    fn sizes(input: &[u8]) -> Vec<(usize, usize)> {
        let text = String::from_utf8(output(input)).unwrap();
        let mut lines = text.lines().peekable();
        let mut rest = input;
        let mut sizes = Vec::new();
        while let Some(event) = Event::read(&mut rest).unwrap() {
            event.unwrap();
            let mut size = lines.next().unwrap().len() + 1;
            while let Some(drop) = lines.next_if(|line| line.starts_with("drop ")) {
                size += drop.len() + 1;
            }
            sizes.push((input.len() - rest.len(), size));
        }
        sizes
    }

    /// How often a read ends within a record, and how often lines do not fit,
    /// in a program with two such buffers.
    fn overruns(input: &[u8]) -> (usize, usize) {
        let (mut across, mut overrun) = (0, 0);
        let (mut at, mut end, mut room) = (0, BUFFER, BUFFER);
        for (next, size) in sizes(input) {
            let (cut, full) = (next > end, size > room);
            across += usize::from(cut);
            overrun += usize::from(full && !cut);
            if cut || full {
                (end, room) = (at + BUFFER, BUFFER);
            }
            room -= size;
            at = next;
        }
        (across, overrun)
    }

    #[test]
    fn it_overruns_both_buffers() {
        let input = input();
        assert!(input.len() > 2 * BUFFER - 1000 && input.len() < 200_000);
        assert!(output(&input).len() > 4 * BUFFER);
        let (across, overrun) = overruns(&input);
        assert!(across > 0 && overrun > 3, "{across} {overrun}");
    }

    #[test]
    fn it_ends_at_a_record() {
        let text = String::from_utf8(output(&input())).unwrap();
        assert!(text.lines().all(|line| line != "no 35"));
        assert!(text.contains("lost 8\n") && text.contains("closed 8\n"));
    }
}
