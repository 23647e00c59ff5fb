//! Random runs: steps drawn by their shares, mostly with what is in flight,
//! some with what was freed or with what is to be refused.

use super::walk_play::{Entry, Play, Way};
use super::walk_scripts::Script;
use crate::clock::{self, Clock, Pace};
use crate::event::Event;
use crate::generator::Generator;
use crate::table::Side;

#[derive(Clone, Copy)]
pub enum Step {
    Ask,
    /// An end of one of the last requests freed.
    Late,
    /// A front number in flight at its link.
    InFlightAlready,
    NoSuchPeerOrNumber,
    /// A request in flight.
    Free(Way),
    /// Any peer of a side, with requests or with none.
    Gone(Side),
    /// With the clock's time; some with a time that is refused.
    AskBy,
    RunOut,
}

/// What the steps of a run are drawn from.
#[derive(Clone, Copy)]
pub struct Habits {
    pub seed: u64,
    /// Links are below this.
    pub links: u64,
    /// Half of the asks are for publishers below this.
    pub favourites: u64,
    /// Each step with its share.
    pub steps: &'static [(Step, u64)],
    /// With fewer requests in flight than this, ...
    pub enough: usize,
    /// ... only so many of the shares count.
    pub if_few: u64,
    /// The first time of the clock, ...
    pub start: u64,
    /// ... and how it moves.
    pub pace: Pace,
}

pub struct Crowd {
    play: Play,
    generator: Generator,
    clock: Clock,
    habits: Habits,
    /// Requests that were freed, the last ones last.
    freed: Vec<Entry>,
}

impl Crowd {
    pub fn new(first: i64, habits: Habits) -> Crowd {
        Crowd {
            play: Play::new(first),
            generator: Generator::new(habits.seed),
            clock: Clock::new(habits.start, habits.pace),
            habits,
            freed: Vec::new(),
        }
    }

    /// The events of so many steps; then what is left is listed, so that no
    /// wrong order stays hidden.
    pub fn script(mut self, count: usize) -> Script {
        (0..count).for_each(|_| self.step());
        self.play.lost([2, 6]);
        self.play.closed(0..32);
        self.play.script
    }

    fn step(&mut self) {
        let before = self.play.entries.clone();
        match self.next_step(before.len()) {
            Step::Ask => self.ask(),
            Step::Late => self.late(),
            Step::InFlightAlready => self.in_flight_already(),
            Step::NoSuchPeerOrNumber => self.no_such_peer_or_number(),
            Step::Free(way) => self.free(way),
            Step::Gone(side) => self.any_gone(side),
            Step::AskBy => self.ask_by(),
            Step::RunOut => {
                let time = self.time();
                self.play.run_out([time]);
            }
        }
        let left = &self.play.entries;
        let is_freed = |entry: &&Entry| left.iter().all(|other| other.front != entry.front);
        self.freed.extend(before.iter().filter(is_freed));
    }

    fn next_step(&mut self, in_flight: usize) -> Step {
        let all = self.habits.steps.iter().map(|(_, share)| share).sum();
        let few = in_flight < self.habits.enough;
        let mut roll = self
            .generator
            .below(if few { self.habits.if_few } else { all });
        for &(step, share) in self.habits.steps {
            if roll < share {
                return step;
            }
            roll -= share;
        }
        unreachable!("a roll is below the sum of the shares")
    }

    fn link(&mut self) -> u8 {
        self.generator.below(self.habits.links) as u8
    }

    fn publisher(&mut self) -> u8 {
        let end = self.generator.pick(&[8, self.habits.favourites]);
        self.generator.below(end) as u8
    }

    fn ask(&mut self) {
        let (link, publisher) = (self.link(), self.publisher());
        self.play.fresh(link, publisher);
    }

    fn time(&mut self) -> u64 {
        let time = self.clock.tick(&mut self.generator);
        match self.generator.below(30) {
            0 => clock::beyond(&mut self.generator),
            _ => time,
        }
    }

    fn ask_by(&mut self) {
        let (link, publisher) = (self.link(), self.publisher());
        let (time, timeout) = (self.time(), clock::timeout(&mut self.generator));
        self.play.fresh_by(link, publisher, time, timeout);
    }

    fn entry(&mut self) -> Option<Entry> {
        let count = self.play.entries.len().max(1);
        let age = self.generator.below(count as u64) as usize;
        self.play.entries.get(age).copied()
    }

    fn free(&mut self, way: Way) {
        if let Some(entry) = self.entry() {
            self.play.free(entry, way);
        }
    }

    fn any_gone(&mut self, side: Side) {
        let number = match side {
            Side::Front => self.link(),
            Side::Publisher => self.publisher(),
        };
        self.play.gone(side, [number]);
    }

    /// The end is asked again or not found.
    fn late(&mut self) {
        let back = 1 + self.generator.below(24) as usize;
        let Some(&entry) = self.freed.iter().nth_back(back) else {
            return self.ask();
        };
        match self.generator.below(3) {
            0 => self.play.reply(entry.publisher),
            1 => self.play.cancel(entry.front),
            _ => self
                .play
                .ask(entry.front.0, entry.front.1, entry.publisher.0),
        }
    }

    fn in_flight_already(&mut self) {
        let publisher = self.publisher();
        if let Some(entry) = self.entry() {
            self.play.ask(entry.front.0, entry.front.1, publisher);
        }
    }

    fn no_such_peer_or_number(&mut self) {
        let (link, publisher) = (self.link(), self.publisher());
        let number = self.generator.pick(&[0, 1, 2]);
        let event = match self.generator.below(9) {
            0 => Event::Ask(link | 32, number, publisher),
            1 => Event::Ask(link, number, publisher | 8),
            2 => Event::Reply(publisher | 8, number),
            3 => Event::Cancel(link | 64, number),
            4 => Event::Gone(Side::Front, link | 128),
            5 => Event::Gone(Side::Publisher, publisher | 16),
            6 => Event::Reply(publisher, 0),
            7 => Event::Cancel(link, 0),
            _ => Event::Ask(link, 0, publisher),
        };
        self.play.push(event);
    }
}
