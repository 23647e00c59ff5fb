//! Pairs of calls on a table that holds a number of requests: one is freed, and one is asked. Which one is freed is
//! drawn before the time is taken, and so are links, numbers and timeouts; the loads of the publishers stay even.

use super::two_maps::TwoMaps;
use super::{by_maps, ours, time, Answer};
use reference::event::Event;
use reference::generator::Generator;
use relay::{PublisherNumber, Table};

/// In a round: more than a processor learns by heart from the rounds before.
const PAIRS: usize = 20_000;
const ROUNDS: usize = 51;
const IN_FLIGHT: [usize; 6] = [1, 8, 16, 32, 48, 56];

/// Which request is freed.
#[derive(Clone, Copy, PartialEq)]
pub enum Freed {
    /// The oldest, by a reply.
    Oldest,
    /// One at random, one in four by a cancel.
    Random,
}

/// What fills the table, and the calls that follow.
struct Work {
    fill: Vec<Event>,
    calls: Vec<Event>,
}

/// A request in flight: its front end and its publisher's.
type Request = ((u8, i64), (u8, i64));

/// Draws events; the table tells it the publisher numbers.
struct Draws {
    generator: Generator,
    table: TwoMaps,
    in_flight: Vec<Request>,
    front: i64,
    /// Whether a request has a deadline: of some seconds by a clock that runs on, so that none comes.
    timed: bool,
}

impl Draws {
    fn ask(&mut self, publisher: u8) -> Event {
        self.front += 1;
        let link = self.generator.below(32) as u8;
        let number = self.table.ask(link, self.front, publisher).expect("the loads are even");
        self.in_flight.push(((link, self.front), (publisher, number)));
        if !self.timed {
            return Event::Ask(link, self.front, publisher);
        }
        let timeout = 10_000 + self.generator.below(20_000) as u32;
        Event::AskBy(link, self.front, publisher, self.front as u64, timeout)
    }

    /// The event that frees a request, and the publisher that it had.
    fn free(&mut self, freed: Freed) -> (Event, u8) {
        let nth = self.generator.below(self.in_flight.len() as u64) as usize;
        let cancels = freed == Freed::Random && self.generator.below(4) == 0;
        let nth = if freed == Freed::Oldest { 0 } else { nth };
        let ((link, front), (publisher, number)) = self.in_flight.remove(nth);
        self.table.reply(publisher, number).expect("it is in flight");
        let event = if cancels { Event::Cancel(link, front) } else { Event::Reply(publisher, number) };
        (event, publisher)
    }
}

fn draw(in_flight: usize, freed: Freed, timed: bool) -> Work {
    let table = TwoMaps::new(1).expect("1 is a first number");
    let mut draws = Draws { generator: Generator::new(12), table, in_flight: Vec::new(), front: 0, timed };
    let fill = (0..in_flight).map(|n| draws.ask(n as u8 % 8)).collect();
    let mut calls = Vec::new();
    for n in in_flight..in_flight + PAIRS {
        let (event, publisher) = draws.free(freed);
        calls.push(event);
        // With fewer than eight the publishers take turns.
        calls.push(draws.ask(if in_flight < 8 { n as u8 % 8 } else { publisher }));
    }
    Work { fill, calls }
}

/// Both tables, filled; on copies of them every call is answered alike, and none refused.
fn filled(work: &Work) -> (Table, TwoMaps) {
    let mut table = Table::new(PublisherNumber(1)).expect("1 is a first number");
    let mut maps = TwoMaps::new(1).expect("1 is a first number");
    let both = |table: &mut Table, maps: &mut TwoMaps, event: Event| {
        let answer: Answer = ours(table, event, &mut []);
        assert_eq!(answer, by_maps(maps, event, &mut []), "{event:?}");
        assert!(answer.0 >= 0, "{event:?} is refused");
    };
    work.fill.iter().for_each(|&event| both(&mut table, &mut maps, event));
    let (mut a, mut b) = (table.clone(), maps.clone());
    work.calls.iter().for_each(|&event| both(&mut a, &mut b, event));
    (table, maps)
}

/// Nanoseconds a pair, of ours and of the two maps, in rounds by turns; sorted.
fn measured(in_flight: usize, freed: Freed, timed: bool) -> [Vec<f64>; 2] {
    let work = draw(in_flight, freed, timed);
    let (table, maps) = filled(&work);
    let mut rounds = [const { Vec::new() }; 2];
    for _ in 0..ROUNDS {
        let (mut table, mut maps) = (table.clone(), maps.clone());
        rounds[0].push(2.0 * time(&work.calls, |event| ours(&mut table, event, &mut [])));
        rounds[1].push(2.0 * time(&work.calls, |event| by_maps(&mut maps, event, &mut [])));
    }
    for rounds in &mut rounds {
        rounds.sort_by(f64::total_cmp);
    }
    rounds
}

pub fn print(freed: Freed, timed: bool) {
    let which = match freed {
        Freed::Oldest => "the oldest by a reply",
        Freed::Random => "one at random, one in four by a cancel",
    };
    let asked = if timed { "ask one with a deadline" } else { "ask one" };
    println!("\nNanoseconds to free a request, {which}, and {asked}; and how many times ours is as fast.\n");
    let maps = if timed { "maps and tree" } else { "two hash maps" };
    println!("| in flight | ours, shortest | {maps}, shortest | ours, median | {maps}, median |");
    println!("|---|---|---|---|---|");
    for in_flight in IN_FLIGHT {
        let [ours, maps] = measured(in_flight, freed, timed);
        print!("| {in_flight} |");
        for at in [0, ROUNDS / 2] {
            print!(" {:.0} | {:.0} ({:.2}) |", ours[at], maps[at], maps[at] / ours[at]);
        }
        println!();
    }
}
