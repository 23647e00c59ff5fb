//! Random but sensible events for a table: replies and cancels that mostly
//! match what is in flight, and a share that is to be refused.

use crate::clock::{self, Clock, Pace};
use crate::event::Event;
use crate::generator::Generator;
use crate::table::{Request, Side, Table, LINKS, PUBLISHERS};

/// Shares of the events, out of 1000; the remaining ones are asks.
#[derive(Clone, Copy)]
pub struct Profile {
    pub replies: u64,
    pub cancels: u64,
    pub closed: u64,
    pub lost: u64,
    /// Events that name nothing in flight, what is in flight already, or a
    /// link, publisher or number out of range.
    pub strays: u64,
    /// With so many requests in flight, a reply takes the place of an ask.
    pub enough: usize,
    /// How many publishers get three quarters of the asks.
    pub favourites: u64,
    pub run_outs: u64,
    /// How many of 1000 asks bring a time.
    pub timed: u64,
    /// Of the clock that times are taken from.
    pub pace: Pace,
}

/// For benchmarks: nearly all events are asks that are accepted and replies.
pub const STEADY: Profile = Profile {
    replies: 420,
    cancels: 50,
    closed: 1,
    lost: 1,
    strays: 20,
    enough: 40,
    favourites: 8,
    run_outs: 0,
    timed: 0,
    pace: Pace::Stands,
};

/// The table stays full, so that every kind of room is fought for.
pub const CROWDED: Profile = Profile {
    replies: 260,
    cancels: 80,
    closed: 3,
    lost: 3,
    strays: 50,
    enough: usize::MAX,
    favourites: 3,
    run_outs: 0,
    timed: 0,
    pace: Pace::Stands,
};

/// Loads go up and down around the reserve.
pub const MIXED: Profile = Profile {
    replies: 330,
    cancels: 100,
    closed: 20,
    lost: 10,
    strays: 60,
    enough: usize::MAX,
    favourites: 4,
    run_outs: 0,
    timed: 0,
    pace: Pace::Stands,
};

/// Links and publishers come and go, much is refused.
pub const ROUGH: Profile = Profile {
    replies: 150,
    cancels: 100,
    closed: 60,
    lost: 40,
    strays: 200,
    enough: usize::MAX,
    favourites: 1,
    run_outs: 0,
    timed: 0,
    pace: Pace::Stands,
};

impl Profile {
    /// The same with times: one of 30 events is a run-out, and most asks bring
    /// a time.
    pub fn by_clock(self, pace: Pace) -> Profile {
        Profile {
            run_outs: 33,
            timed: 800,
            pace,
            ..self
        }
    }
}

pub struct Traffic {
    generator: Generator,
    profile: Profile,
    clock: Clock,
    /// Each link's last front number.
    last: [i64; LINKS as usize],
}

impl Traffic {
    pub fn new(seed: u64, profile: Profile) -> Traffic {
        Traffic {
            generator: Generator::new(seed),
            profile,
            clock: Clock::new(0, profile.pace),
            last: std::array::from_fn(start),
        }
    }

    /// An event that suits what is in flight in `table`.
    pub fn event(&mut self, table: &Table) -> Event {
        let event = self.event_without_time(table);
        match event {
            Event::Ask(link, number, publisher) if self.is_timed() => {
                let time = self.time();
                let timeout = clock::timeout(&mut self.generator);
                Event::AskBy(link, number, publisher, time, timeout)
            }
            _ => event,
        }
    }

    fn is_timed(&mut self) -> bool {
        self.profile.timed > 0 && self.generator.below(1000) < self.profile.timed
    }

    /// Few of these are refused.
    fn time(&mut self) -> u64 {
        let time = self.clock.tick(&mut self.generator);
        match self.generator.below(40) {
            0 => clock::beyond(&mut self.generator),
            _ => time,
        }
    }

    /// Asks bring no time yet.
    fn event_without_time(&mut self, table: &Table) -> Event {
        let Profile {
            replies,
            cancels,
            closed,
            lost,
            strays,
            run_outs,
            ..
        } = self.profile;
        let mut roll = self.generator.below(1000);
        let mut falls_in = |share| {
            let hit = roll < share;
            roll = roll.saturating_sub(share);
            hit
        };
        if falls_in(closed) {
            Event::Gone(Side::Front, self.link())
        } else if falls_in(lost) {
            Event::Gone(Side::Publisher, self.publisher())
        } else if falls_in(run_outs) {
            Event::RunOut(self.time())
        } else if falls_in(strays) {
            self.stray(table)
        } else if falls_in(cancels) {
            self.cancel(table)
        } else if falls_in(replies) || table.count() >= self.profile.enough {
            self.reply(table)
        } else {
            self.ask()
        }
    }

    fn link(&mut self) -> u8 {
        self.generator.below(LINKS.into()) as u8
    }

    fn publisher(&mut self) -> u8 {
        let favoured = self.generator.below(4) > 0;
        let end = if favoured {
            self.profile.favourites
        } else {
            PUBLISHERS.into()
        };
        self.generator.below(end) as u8
    }

    /// A request in flight, if there is one.
    fn request(&mut self, table: &Table) -> Option<Request> {
        if table.count() == 0 {
            return None;
        }
        let nth = self.generator.below(table.count() as u64);
        table.in_flight().nth(nth as usize).copied()
    }

    fn ask(&mut self) -> Event {
        let link = self.link();
        let last = &mut self.last[usize::from(link)];
        *last = last.wrapping_add(1);
        Event::Ask(link, *last, self.publisher())
    }

    fn reply(&mut self, table: &Table) -> Event {
        match self.request(table) {
            Some(request) => Event::Reply(request.publisher.0, request.publisher.1),
            None => self.ask(),
        }
    }

    fn cancel(&mut self, table: &Table) -> Event {
        match self.request(table) {
            Some(request) => Event::Cancel(request.front.0, request.front.1),
            None => self.ask(),
        }
    }

    fn stray(&mut self, table: &Table) -> Event {
        let (link, publisher) = (self.link(), self.publisher());
        let beyond = self.generator.pick(&[32, 33, 64, 128, 255]);
        let number = self.generator.pick(&[0, 0, 1, 2, -1, i64::MAX, i64::MIN]);
        let request = self.request(table);
        match (self.generator.below(12), request) {
            (0, _) => Event::Ask(beyond, number, publisher),
            (1, _) => Event::Ask(link, number, self.generator.pick(&[8, 9, 136, 255])),
            (2, _) => Event::Reply(self.generator.pick(&[8, 9, 255]), number),
            (3, _) => Event::Cancel(beyond, number),
            (4, _) => Event::Gone(Side::Front, beyond),
            (5, _) => {
                let beyond = self.generator.pick(&[8, 9, 16, 255]);
                Event::Gone(Side::Publisher, beyond)
            }
            (6, Some(request)) => Event::Ask(request.front.0, request.front.1, publisher),
            // The right number at the wrong side.
            (7, Some(request)) => Event::Reply(publisher, request.front.1),
            (8, Some(request)) => Event::Cancel(link, request.publisher.1),
            (9, _) => Event::Reply(publisher, number),
            (10, _) => Event::Cancel(link, number),
            _ => Event::Ask(link, number, publisher),
        }
    }
}

/// Where a link's front numbers start: some cross 0, some wrap at the largest
/// number, some are large and negative.
fn start(link: usize) -> i64 {
    let offset = link as i64;
    match link % 4 {
        0 => offset,
        1 => -3 * offset,
        2 => i64::MAX - 4 * offset,
        _ => i64::MIN + 1000 * offset,
    }
}

/// A deterministic stream of events for benchmarks, handed to `put` in blocks.
pub fn stream<E>(count: u64, mut put: impl FnMut(&[u8]) -> Result<(), E>) -> Result<(), E> {
    const BLOCK: usize = 1 << 18;
    let mut traffic = Traffic::new(0xBE9C, STEADY);
    let mut table = Table::fresh(1).expect("1 is a first number");
    let mut ends = [0; 2 * crate::table::ROOM];
    let mut bytes = Vec::with_capacity(2 * BLOCK);
    for _ in 0..count {
        let event = traffic.event(&table);
        // Refused or not: the walk will find the same.
        let _ = event.call(&mut table, &mut ends);
        event.encode(&mut bytes);
        if bytes.len() >= BLOCK {
            put(&bytes)?;
            bytes.clear();
        }
    }
    put(&bytes)
}

#[cfg(test)]
mod tests {
    use super::*;
    use crate::walk::walk;

    fn counted(count: u64) -> String {
        let mut bytes = Vec::new();
        let put = |block: &[u8]| -> Result<(), ()> {
            bytes.extend(block);
            Ok(())
        };
        stream(count, put).unwrap();
        let mut output = Vec::new();
        walk(Table::fresh(1).unwrap(), &mut &bytes[..], &mut output).unwrap();
        String::from_utf8(output).unwrap()
    }

    #[test]
    fn the_stream_has_the_events_wanted_of_it() {
        let text = counted(100_000);
        let lines = |word: &str| text.lines().filter(|line| line.starts_with(word)).count();
        assert_eq!(text.lines().count() - lines("drop "), 100_000);
        assert!(lines("ask ") > 45_000);
        assert!(lines("reply ") > 40_000);
        assert!(lines("cancel ") > 2_000);
        assert!(lines("closed ") > 30 && lines("lost ") > 30);
        assert!(lines("no ") > 1_000 && lines("no ") < 10_000);
        assert_eq!(lines("no 35"), 0);
    }
}
