//! The table's calls with the library, with the second program's table (two hash maps over slots), and with what a
//! user would write by hand. All take turns on the same events, in one run.
//!
//! First mixed traffic, beside one hash map keyed by publisher and number. It keeps no rule of room, does not look
//! whether a front number is in flight, and walks over all requests for a cancel or a gone peer. Then pairs of calls
//! at a number of requests in flight, beside two hash maps that keep every rule (two_maps.rs, pairs.rs), and gone peers
//! and deadlines beside those and the second program (gone.rs, deadlines.rs; filled.rs has what both share).
//!
//! The library, the second program and the two hash maps give the same answers, which is checked first.

use reference::clock::Pace;
use reference::event::Event;
use reference::generator::Generator;
use reference::table::{Side, Table as Second};
use reference::traffic::{self, Profile, Traffic};
use relay::{FrontNumber, OtherEnds, Peer, PublisherNumber, Table, ALL_ENDS};
use std::collections::HashMap;
use std::convert::Infallible;
use std::hint::black_box;
use std::num::NonZeroU32;
use std::time::Instant;

#[path = "deadlines.rs"]
mod deadlines;
#[path = "filled.rs"]
mod filled;
#[path = "gone.rs"]
mod gone;
#[path = "pairs.rs"]
mod pairs;
#[path = "two_maps.rs"]
mod two_maps;
use pairs::Freed;
use two_maps::TwoMaps;

const EVENTS: u64 = 200_000;
const ROUNDS: usize = 25;

/// Every answer as a number or two, and a refusal as its number; the ends of a gone peer's requests as their sum.
type Answer = (i64, i64);

fn ours(table: &mut Table, event: Event, ends: &mut [i64]) -> Answer {
    let refused = |refusal: relay::Refusal| (-i64::from(refusal.number()), 0);
    match event {
        Event::Ask(link, number, publisher) => {
            table.ask(link, FrontNumber(number), publisher).map_or_else(refused, |n| (n.0, 0))
        }
        Event::Reply(publisher, number) => {
            table.reply(publisher, PublisherNumber(number)).map_or_else(refused, |(link, n)| (i64::from(link), n.0))
        }
        Event::Cancel(link, number) => {
            table.cancel(link, FrontNumber(number)).map_or_else(refused, |(publisher, n)| (i64::from(publisher), n.0))
        }
        Event::Gone(side, number) => match table.gone(peer(side, number), ends) {
            Ok(OtherEnds::Publishers(ends)) => {
                (ends.len() as i64, ends.map(|(publisher, n)| i64::from(publisher) ^ n.0).sum())
            }
            Ok(OtherEnds::Fronts(ends)) => (ends.len() as i64, ends.map(|(link, n)| i64::from(link) ^ n.0).sum()),
            Err(refusal) => refused(refusal),
        },
        Event::AskBy(link, number, publisher, time, timeout) => {
            let asked = table.ask_by(link, FrontNumber(number), publisher, time, NonZeroU32::new(timeout));
            asked.map_or_else(refused, |n| (n.0, 0))
        }
        Event::RunOut(time) => match table.run_out(time, ends) {
            Ok(ends) => (ends.len() as i64, ends.map(|(link, n)| i64::from(link) ^ n.0).sum()),
            Err(refusal) => refused(refusal),
        },
    }
}

fn peer(side: Side, number: u8) -> Peer {
    match side {
        Side::Front => Peer::Front(number),
        Side::Publisher => Peer::Publisher(number),
    }
}

/// How many ends were written to the front of a slice, and their sum.
fn summed(count: usize, ends: &[i64]) -> Answer {
    (count as i64, ends[..2 * count].chunks_exact(2).map(|end| end[0] ^ end[1]).sum())
}

fn second(table: &mut Second, event: Event, ends: &mut [i64]) -> Answer {
    use reference::event::Answer::*;
    match event.call(table, ends) {
        Ok(Ask(number)) => (number, 0),
        Ok(Reply((place, number)) | Cancel((place, number))) => (i64::from(place), number),
        Ok(Gone(_, count) | RunOut(count)) => summed(count, ends),
        Err(refusal) => (-i64::from(refusal.number()), 0),
    }
}

fn by_maps(table: &mut TwoMaps, event: Event, ends: &mut [i64]) -> Answer {
    let refused = |number: u8| (-i64::from(number), 0);
    let end = |(place, number): (u8, i64)| (i64::from(place), number);
    match event {
        Event::Ask(link, number, publisher) => {
            table.ask(link, number, publisher).map_or_else(refused, |number| (number, 0))
        }
        Event::Reply(publisher, number) => table.reply(publisher, number).map_or_else(refused, end),
        Event::Cancel(link, number) => table.cancel(link, number).map_or_else(refused, end),
        Event::Gone(side, number) => {
            let gone = table.gone(side == Side::Publisher, number, ends);
            gone.map_or_else(refused, |count| summed(count, ends))
        }
        Event::AskBy(link, number, publisher, time, timeout) => {
            table.ask_by(link, number, publisher, time, timeout).map_or_else(refused, |number| (number, 0))
        }
        Event::RunOut(time) => table.run_out(time, ends).map_or_else(refused, |count| summed(count, ends)),
    }
}

#[derive(Default)]
struct Plain {
    requests: HashMap<(u8, i64), (u8, i64)>,
    last: [i64; 8],
}

fn plain(table: &mut Plain, event: Event) -> Answer {
    match event {
        // It knows no deadlines, and the mixed traffic has none.
        Event::RunOut(_) => (0, 0),
        Event::Ask(link, number, publisher) | Event::AskBy(link, number, publisher, ..) => {
            let Some(last) = table.last.get_mut(usize::from(publisher)) else { return (-30, 0) };
            *last += 1;
            table.requests.insert((publisher, *last), (link, number));
            (*last, 0)
        }
        Event::Reply(publisher, number) => match table.requests.remove(&(publisher, number)) {
            Some((link, number)) => (i64::from(link), number),
            None => (-34, 0),
        },
        Event::Cancel(link, number) => match table.requests.iter().find(|(_, front)| **front == (link, number)) {
            Some((&(publisher, n), _)) => {
                table.requests.remove(&(publisher, n));
                (i64::from(publisher), n)
            }
            None => (-34, 0),
        },
        Event::Gone(side, number) => {
            let before = table.requests.len();
            match side {
                Side::Front => table.requests.retain(|_, front| front.0 != number),
                Side::Publisher => table.requests.retain(|key, _| key.0 != number),
            }
            ((before - table.requests.len()) as i64, 0)
        }
    }
}

fn events() -> Vec<Event> {
    let mut bytes = Vec::new();
    let Ok(()) = traffic::stream(EVENTS, |block| {
        bytes.extend_from_slice(block);
        Ok::<(), Infallible>(())
    });
    let mut input = &bytes[..];
    let mut events = Vec::new();
    while let Some(event) = Event::read(&mut input).expect("bytes in memory") {
        events.push(event.expect("whole events"));
    }
    events
}

/// Nanoseconds a call.
fn time(events: &[Event], mut call: impl FnMut(Event) -> Answer) -> f64 {
    let start = Instant::now();
    for &event in events {
        black_box(call(black_box(event)));
    }
    start.elapsed().as_nanos() as f64 / events.len() as f64
}

/// Traffic of four kinds and one with deadlines, with drops into slices that are too short, from a first number that
/// soon wraps.
fn check(first: i64) {
    let mut generator = Generator::new(7);
    let timed = Profile { run_outs: 20, timed: 600, pace: Pace::Any, ..traffic::MIXED };
    for profile in [traffic::STEADY, traffic::CROWDED, traffic::MIXED, traffic::ROUGH, timed] {
        let mut table = Table::new(PublisherNumber(first)).expect("a first number");
        let mut other = Second::fresh(first).expect("a first number");
        let mut maps = TwoMaps::new(first).expect("a first number");
        let mut traffic = Traffic::new(generator.draw(), profile);
        for _ in 0..EVENTS {
            let event = traffic.event(&other);
            let room = generator.pick(&[ALL_ENDS, ALL_ENDS, ALL_ENDS, 16, 3, 0]);
            let mut ends = [[-1; ALL_ENDS]; 3];
            let answers = [
                ours(&mut table, event, &mut ends[0][..room]),
                second(&mut other, event, &mut ends[1][..room]),
                by_maps(&mut maps, event, &mut ends[2][..room]),
            ];
            assert_eq!((answers[0], ends[0]), (answers[1], ends[1]), "{event:?}");
            assert_eq!((answers[0], ends[0]), (answers[2], ends[2]), "{event:?}");
        }
    }
}

/// Rounds of mixed traffic by turns, sorted: ours, the second program, one hash map.
fn mixed(events: &[Event]) -> [Vec<f64>; 3] {
    let mut ends = [0; ALL_ENDS];
    let mut rounds = [const { Vec::new() }; 3];
    for _ in 0..ROUNDS {
        let mut table = Table::new(PublisherNumber(1)).expect("1 is a first number");
        rounds[0].push(time(events, |event| ours(&mut table, event, &mut ends)));
        let mut table = Second::fresh(1).expect("1 is a first number");
        rounds[1].push(time(events, |event| second(&mut table, event, &mut ends)));
        let mut table = Plain::default();
        rounds[2].push(time(events, |event| plain(&mut table, event)));
    }
    for rounds in &mut rounds {
        rounds.sort_by(f64::total_cmp);
    }
    rounds
}

fn main() {
    check(1);
    check(i64::MAX - 1000);
    let rounds = mixed(&events());
    println!("\nNanoseconds a call of the table, and how many times ours is as fast.\n");
    println!("| calls | relay_ask, relay_reply, .. | second program | one hash map |\n|---|---|---|---|");
    for (name, at) in [("shortest", 0), ("median", ROUNDS / 2)] {
        let [ours, second, plain] = [0, 1, 2].map(|i: usize| rounds[i][at]);
        println!("| {name} | {ours:.0} | {second:.0} ({:.2}) | {plain:.0} ({:.2}) |", second / ours, plain / ours);
    }
    pairs::print(Freed::Oldest, false);
    pairs::print(Freed::Random, false);
    pairs::print(Freed::Random, true);
    gone::print();
    deadlines::print();
}
