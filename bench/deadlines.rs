//! Deadlines on a table that holds 48 requests: an ask with one and without, and run-outs of none, of one and of the
//! sixteen of a publisher that hangs.

use super::filled::{self, Work, IN_FLIGHT};
use reference::event::Event;
use reference::generator::Generator;

/// When a run-out is called, and what requests have that run out by then, and that do not.
const NOW: u64 = 40_000;
const SHORT: u64 = 1_000;
const LONG: u64 = 60_000;

/// A table in which so many requests are due at a time, and the others are not; the clock runs on, and timeouts differ.
/// The due ones are of one publisher, and the loads of all others are even.
fn fill(generator: &mut Generator, due: usize) -> Vec<Event> {
    let hung = generator.below(8) as u8;
    let mut asks: Vec<(u8, u64)> = Vec::new();
    for i in 0..IN_FLIGHT {
        asks.push(match i < due {
            true => (hung, SHORT + generator.below(SHORT)),
            false => ((hung + 1 + i as u8 % 7) % 8, LONG + generator.below(LONG)),
        });
    }
    for i in 1..IN_FLIGHT {
        asks.swap(i, generator.below(i as u64 + 1) as usize);
    }
    let ask = |(i, (publisher, timeout))| {
        let link = generator.below(32) as u8;
        Event::AskBy(link, 1 + i as i64, publisher, 100 * i as u64, timeout as u32)
    };
    asks.into_iter().enumerate().map(ask).collect()
}

/// One request more, of the publisher that has none: it gets its first number.
fn asked(generator: &mut Generator, timed: bool) -> (Work, i64) {
    let mut fill = fill(generator, 0);
    let has = |event: &Event, publisher: u8| matches!(event, Event::AskBy(_, _, p, ..) if *p == publisher);
    let is_idle = |&publisher: &u8| !fill.iter().any(|event| has(event, publisher));
    let publisher = (0..8).find(is_idle).expect("the one that would hang");
    let (link, number) = (generator.below(32) as u8, 1 + IN_FLIGHT as i64);
    let call = match timed {
        true => Event::AskBy(link, number, publisher, 100 * IN_FLIGHT as u64, LONG as u32),
        false => Event::Ask(link, number, publisher),
    };
    if !timed {
        fill.iter_mut().for_each(without_deadline);
    }
    (Work { fill, call }, 1)
}

fn without_deadline(event: &mut Event) {
    if let Event::AskBy(link, number, publisher, ..) = *event {
        *event = Event::Ask(link, number, publisher);
    }
}

pub fn print() {
    println!("\nNanoseconds of calls with {IN_FLIGHT} in flight; and how many times ours is as fast.\n");
    filled::print_head("call", "maps and tree");
    for (name, timed) in [("ask, no request with a deadline", false), ("ask with a deadline, as all others", true)] {
        let mut generator = Generator::new(5);
        filled::print_row(name, || asked(&mut generator, timed));
    }
    for due in [0, 1, 16] {
        let mut generator = Generator::new(6);
        let draw = || (Work { fill: fill(&mut generator, due), call: Event::RunOut(NOW) }, due as i64);
        filled::print_row(&format!("run-out, {due} due"), draw);
    }
}
