//! A run in the making. It keeps the requests in flight in the order of
//! acceptance, each with the slot that the lowest-free-slot rule of document
//! 02, A12, gives it, so that a case can name a request by age or by slot.

use super::walk_cases::Runs;
use super::walk_scripts::Script;
use crate::event::{Answer, Event};
use crate::table::{End, Request, Side, Table, LINKS, ROOM};

#[derive(Clone, Copy)]
pub struct Entry {
    /// Front link and front number.
    pub front: End,
    /// Publisher and publisher number.
    pub publisher: End,
    pub slot: usize,
    pub deadline: Option<u64>,
}

impl Entry {
    pub fn end(&self, side: Side) -> End {
        side.of(self.front, self.publisher)
    }
}

/// The four ways to free requests.
#[derive(Clone, Copy)]
pub enum Way {
    Reply,
    Cancel,
    Gone(Side),
}

pub const WAYS: [Way; 4] = [
    Way::Reply,
    Way::Cancel,
    Way::Gone(Side::Front),
    Way::Gone(Side::Publisher),
];

/// Reply and cancel by turns.
pub fn one_by(turn: usize) -> Way {
    WAYS[turn % 2]
}

/// What a run is about, and the first number it is stored with.
pub type Case = (i64, fn(&mut Play));

pub fn push_case(runs: &mut Runs, first: i64, case: impl FnOnce(&mut Play)) {
    let mut play = Play::new(first);
    case(&mut play);
    runs.push(first, play.script);
}

pub struct Play {
    pub script: Script,
    /// Every publisher's first number.
    pub first: i64,
    table: Table,
    /// Oldest accepted first.
    pub entries: Vec<Entry>,
    /// Each link's front numbers so far. Counted by link, so that many links
    /// have the same number in flight.
    last: [i64; LINKS as usize],
}

impl Play {
    pub fn new(first: i64) -> Play {
        Play {
            script: Script::default(),
            first,
            table: Table::fresh(first).expect("a first number of at least 1"),
            entries: Vec::new(),
            last: [0; LINKS as usize],
        }
    }

    pub fn push(&mut self, event: Event) {
        let answer = event.call(&mut self.table, &mut [0; 2 * ROOM]);
        match (event, answer) {
            (_, Ok(Answer::Ask(_))) => self.enter_newest(),
            (_, Err(_)) => {}
            _ => {
                let latest = self.latest_time();
                self.entries.retain(|entry| !frees(event, entry, latest));
            }
        }
        event.encode(&mut self.script.bytes);
    }

    /// The request in flight that has no entry yet.
    fn enter_newest(&mut self) {
        let is_new = |request: &&Request| {
            let mut entries = self.entries.iter();
            entries.all(|entry| entry.front != request.front)
        };
        let newest = self.table.in_flight().find(is_new);
        let newest = *newest.expect("a request just accepted");
        let slot = (0..ROOM).find(|&slot| self.at(slot).is_none());
        self.entries.push(Entry {
            front: newest.front,
            publisher: newest.publisher,
            slot: slot.expect("a free slot"),
            deadline: newest.deadline(),
        });
    }

    /// The latest time seen.
    pub fn latest_time(&self) -> u64 {
        self.table.latest_time()
    }

    pub fn ask(&mut self, link: u8, number: i64, publisher: u8) {
        self.push(Event::Ask(link, number, publisher));
    }

    /// The same request of a front end for each publisher given.
    pub fn ask_each(&mut self, front: End, publishers: impl IntoIterator<Item = u8>) {
        for publisher in publishers {
            self.ask(front.0, front.1, publisher);
        }
    }

    /// Front numbers go on after `number` at every link.
    pub fn count_from(&mut self, number: i64) {
        self.last = [number; LINKS as usize];
    }

    /// The link's next front number; every fifth is negative.
    fn next_number(&mut self, link: u8) -> i64 {
        let last = &mut self.last[usize::from(link)];
        *last += 1;
        if *last % 5 == 0 {
            -*last
        } else {
            *last
        }
    }

    /// Asks with the link's next front number.
    pub fn fresh(&mut self, link: u8, publisher: u8) {
        let number = self.next_number(link);
        self.ask(link, number, publisher);
    }

    pub fn ask_by(&mut self, (link, number): End, publisher: u8, time: u64, timeout: u32) {
        self.push(Event::AskBy(link, number, publisher, time, timeout));
    }

    /// As `fresh`, with a time and a timeout.
    pub fn fresh_by(&mut self, link: u8, publisher: u8, time: u64, timeout: u32) {
        let number = self.next_number(link);
        self.ask_by((link, number), publisher, time, timeout);
    }

    pub fn run_out(&mut self, times: impl IntoIterator<Item = u64>) {
        for time in times {
            self.push(Event::RunOut(time));
        }
    }

    /// So many requests of one link to one publisher.
    pub fn fresh_many(&mut self, count: usize, link: u8, publisher: u8) {
        (0..count).for_each(|_| self.fresh(link, publisher));
    }

    pub fn reply(&mut self, publisher: End) {
        self.push(Event::Reply(publisher.0, publisher.1));
    }

    pub fn cancel(&mut self, front: End) {
        self.push(Event::Cancel(front.0, front.1));
    }

    /// A reply and a cancel; at least one of them comes late.
    pub fn both_ends(&mut self, entry: Entry) {
        self.reply(entry.publisher);
        self.cancel(entry.front);
    }

    pub fn gone(&mut self, side: Side, peers: impl IntoIterator<Item = u8>) {
        for number in peers {
            self.push(Event::Gone(side, number));
        }
    }

    pub fn closed(&mut self, links: impl IntoIterator<Item = u8>) {
        self.gone(Side::Front, links);
    }

    pub fn lost(&mut self, publishers: impl IntoIterator<Item = u8>) {
        self.gone(Side::Publisher, publishers);
    }

    /// Frees `entry`; a gone peer frees others with it.
    pub fn free(&mut self, entry: Entry, way: Way) {
        match way {
            Way::Reply => self.reply(entry.publisher),
            Way::Cancel => self.cancel(entry.front),
            Way::Gone(side) => self.gone(side, [entry.end(side).0]),
        }
    }

    pub fn at(&self, slot: usize) -> Option<Entry> {
        let found = self.entries.iter().find(|entry| entry.slot == slot);
        found.copied()
    }

    /// The request in a slot that is known to be used.
    pub fn in_slot(&self, slot: usize) -> Entry {
        self.at(slot).expect("a used slot")
    }

    /// The publisher's requests, oldest accepted first.
    pub fn of(&self, publisher: u8) -> Vec<Entry> {
        self.of_peer(Side::Publisher, publisher)
    }

    /// The requests of a peer on either side, oldest accepted first.
    pub fn of_peer(&self, side: Side, number: u8) -> Vec<Entry> {
        let of_peer = |entry: &&Entry| entry.end(side).0 == number;
        self.entries.iter().filter(of_peer).copied().collect()
    }

    /// Asks in rounds over the publishers until each has its load. The links
    /// below `links` take turns, shifted from round to round.
    pub fn fill(&mut self, loads: [usize; 8], links: usize) {
        for turn in 0..16 * 8 {
            let publisher = (turn % 8) as u8;
            if self.of(publisher).len() < loads[turn % 8] {
                self.fresh(((turn + turn / 8) % links) as u8, publisher);
            }
        }
    }

    /// One more ask for each publisher, from the last one down.
    pub fn probe(&mut self, link: u8) {
        for publisher in (0..8).rev() {
            self.fresh(link, publisher);
        }
    }
}

fn frees(event: Event, entry: &Entry, latest_time: u64) -> bool {
    match event {
        Event::Ask(..) | Event::AskBy(..) => false,
        Event::RunOut(_) => entry
            .deadline
            .is_some_and(|deadline| deadline <= latest_time),
        Event::Reply(publisher, number) => entry.publisher == (publisher, number),
        Event::Cancel(link, number) => entry.front == (link, number),
        Event::Gone(side, number) => entry.end(side).0 == number,
    }
}
