//! Lists of calls from a fresh table on: the places of the used slots say which
//! request is older, and their deadlines which runs out.

use super::random::Random;
use super::*;

/// A request in flight, and its slot.
#[derive(Clone, Copy)]
struct Flight {
    link: u8,
    front: i64,
    publisher: u8,
    number: i64,
    slot: usize,
    /// 0 for none.
    deadline: u64,
}

/// A table, what is in flight, oldest first, and the latest time seen.
struct Both {
    table: Table,
    flights: Vec<Flight>,
    latest: u64,
}

impl Both {
    fn ask(&mut self, link: u8, front: i64, publisher: u8, (time, timeout): (u64, u32)) {
        let slot = self.table.masks[0].trailing_ones() as usize;
        let number = FrontNumber(front);
        let asked = relay_ask_by(&mut self.table, link, number, publisher, time, timeout);
        if asked.refusal == 0 {
            self.latest = self.latest.max(time);
            let deadline = self.latest + u64::from(timeout);
            self.flights.push(Flight {
                link,
                front,
                publisher,
                number: asked.number.0,
                slot,
                deadline: if timeout == 0 { 0 } else { deadline },
            });
        }
    }

    fn run_out(&mut self, time: u64) {
        let mut out = [0; 128];
        let dropped = relay_run_out(&mut self.table, time, &mut out);
        self.latest = self.latest.max(time);
        let now = self.latest;
        let gone = self.leave(|f| (1..=now).contains(&f.deadline));
        let ends = gone.iter().flat_map(|f| [f.link.into(), f.front]);
        assert_eq!((dropped.refusal, dropped.count), (0, gone.len()));
        assert!(ends.eq(out[..2 * gone.len()].iter().copied()));
    }

    fn reply_or_cancel(&mut self, nth: usize, reply: bool) {
        let f = self.flights.remove(nth);
        if reply {
            let replied = relay_reply(&mut self.table, f.publisher, PublisherNumber(f.number));
            let answer = (replied.refusal, replied.link, replied.number.0);
            assert_eq!(answer, (0, f.link, f.front));
        } else {
            let cancelled = relay_cancel(&mut self.table, f.link, FrontNumber(f.front));
            let answer = (cancelled.refusal, cancelled.publisher, cancelled.number.0);
            assert_eq!(answer, (0, f.publisher, f.number));
        }
    }

    fn gone(&mut self, publisher: bool, number: u8) {
        let mut out = [0; 128];
        let dropped = relay_gone(&mut self.table, publisher, number, &mut out);
        let gone = self.leave(|f| number == if publisher { f.publisher } else { f.link });
        let ends = gone.iter().flat_map(|f| match publisher {
            true => [f.link.into(), f.front],
            false => [f.publisher.into(), f.number],
        });
        assert_eq!((dropped.refusal, dropped.count), (0, gone.len()));
        assert!(ends.eq(out[..2 * gone.len()].iter().copied()));
    }

    fn leave(&mut self, leaves: impl Fn(&Flight) -> bool) -> Vec<Flight> {
        let gone = self.flights.iter().copied().filter(&leaves).collect();
        self.flights.retain(|f| !leaves(f));
        gone
    }

    fn any_call(&mut self, random: &mut Random, asks: usize) {
        let (link, publisher) = (random.below(6) as u8, random.below(8) as u8);
        let count = self.flights.len();
        // On by 4 at most, or back by 9 at most.
        let time = (self.latest + random.below(14) as u64).saturating_sub(9);
        match random.below(100) {
            kind if kind < asks => {
                let timeout = [0, 1, 20, 90][random.below(4)];
                let front = 1 + random.below(100) as i64;
                self.ask(link, front, publisher, (time, timeout));
            }
            kind if kind % 5 == 0 => self.run_out(time),
            kind if kind % 9 == 0 => self.gone(LINK, link),
            kind if kind % 9 == 1 => self.gone(PUBLISHER, publisher),
            kind if count > 0 => self.reply_or_cancel(random.below(count), kind % 2 == 0),
            _ => {}
        }
    }

    /// By the places, the used slots have the requests in flight from the oldest on.
    fn holds(&self) {
        let slots = self.flights.iter().map(|f| f.slot);
        assert!(by_age(&self.table).into_iter().eq(slots));
        for f in &self.flights {
            let (places, numbers) = (&self.table.places, &self.table.numbers);
            assert_eq!((places[f.slot], numbers[f.slot]), (f.link, f.front));
            let other = 64 + f.slot;
            assert_eq!((places[other], numbers[other]), (f.publisher, f.number));
            assert_eq!(self.table.times[f.slot], f.deadline);
        }
        assert_eq!(self.table.times[64], self.latest);
    }
}

/// Whatever stood there before; and every count from 0 to 64 is met.
#[test]
fn places_are_by_acceptance_after_any_calls() {
    let mut random = Random(7);
    let mut counts = [false; 65];
    for n in 0..200 {
        let mut table = EMPTY;
        table.order = match n % 3 {
            0 => [0; 64],
            1 => [255; 64],
            _ => random.bytes(64).try_into().expect("64 bytes"),
        };
        assert_eq!(relay_fresh(&mut table, PublisherNumber(FIRST)), 0);
        let mut both = Both {
            table,
            flights: Vec::new(),
            latest: 0,
        };
        for _ in 0..400 {
            both.any_call(&mut random, [40, 60, 80, 97][n % 4]);
            both.holds();
            counts[both.flights.len()] = true;
        }
    }
    assert_eq!(counts, [true; 65]);
}
