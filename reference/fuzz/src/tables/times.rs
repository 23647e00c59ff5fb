//! The calls that bring a time, and the times that they bring.

use super::{number, room_for, some, Answer, Both};
use crate::compare::{same, Compared};
use crate::counts::Counts;
use crate::draw::{coin, one_in};
use reference::clock::{beyond, timeout, Clock, Pace, LARGEST_TIME};
use reference::generator::Generator;
use reference::table::{End, Request};
use relay::FrontNumber;
use std::cmp::Ordering;
use std::num::NonZeroU32;

/// It stands, runs on, jumps, goes back, or does any of these in turn; and it may
/// come to the last time there is.
pub fn clock(g: &mut Generator) -> Clock {
    let pace = g.pick(&[
        Pace::Stands,
        Pace::RunsOn,
        Pace::Jumps,
        Pace::GoesBack,
        Pace::Any,
        Pace::Any,
    ]);
    let random = g.draw() >> (2 + g.below(60));
    let start = match g.below(20) {
        0 => LARGEST_TIME,
        1 => LARGEST_TIME - 400,
        2..6 => random,
        _ => g.pick(&[0, 1, 1000]),
    };
    Clock::new(start, pace)
}

/// Mostly short beside a clock's steps; now and then any, as a user would say it.
fn any_timeout(g: &mut Generator) -> u32 {
    if one_in(g, 20) {
        g.draw() as u32 >> g.below(32)
    } else {
        timeout(g)
    }
}

fn is_due(request: &Request, time: u64) -> bool {
    request.deadline().is_some_and(|deadline| deadline <= time)
}

impl Both {
    /// Mostly the clock's; now and then a deadline or what stands right before it,
    /// an end of the range, or a time beyond it.
    fn any_time(&mut self, g: &mut Generator, counts: &mut Counts) -> u64 {
        let deadlines = self.near_deadlines(g);
        let ticked = self.clock.tick(g);
        let time = match g.below(60) {
            0 => beyond(g),
            1 if one_in(g, 100) => LARGEST_TIME,
            2 => 0,
            3..9 if !deadlines.is_empty() => g.pick(&deadlines) - g.below(2),
            _ => ticked,
        };
        let kind = match time.cmp(&self.second.latest_time()) {
            _ if time > LARGEST_TIME => "out of range",
            Ordering::Less => "back",
            Ordering::Equal => "the same",
            Ordering::Greater if time == LARGEST_TIME => "the last",
            Ordering::Greater => "on",
        };
        counts.add("time", Ok(kind));
        time
    }

    /// Those that the clock may reach, or rarely any; such a time leaves the clock
    /// behind for the rest of the list.
    fn near_deadlines(&self, g: &mut Generator) -> Vec<u64> {
        let end = match one_in(g, 200) {
            true => LARGEST_TIME,
            false => self.second.latest_time().saturating_add(100),
        };
        let deadlines = self.second.in_flight().filter_map(Request::deadline);
        deadlines.filter(|&deadline| deadline <= end).collect()
    }

    pub(super) fn any_ask_by(
        &mut self,
        g: &mut Generator,
        front: End,
        publisher: u8,
        counts: &mut Counts,
    ) -> Compared {
        let time = self.any_time(g, counts);
        let timeout = any_timeout(g);
        self.ask_by(front, publisher, (time, timeout), counts)
    }

    fn ask_by(
        &mut self,
        (link, front): End,
        publisher: u8,
        (time, timeout): (u64, u32),
        counts: &mut Counts,
    ) -> Compared {
        let before = *self.ours.raw();
        let (number_, some) = (FrontNumber(front), NonZeroU32::new(timeout));
        let ours = self.ours.ask_by(link, number_, publisher, time, some);
        let ours: Answer = ours.map(|n| (n.0, 0)).map_err(|r| r.number());
        let second = self.second.ask_by(link, front, publisher, time, timeout);
        let second: Answer = second.map(|n| (n, 0)).map_err(number);
        counts.add("ask by", second.map(|_| deadline_word(timeout)));
        let call = || format!("ask {link}/{front}/{publisher} at {time}, timeout {timeout}");
        same("an ask with a time", call, ours, second)?;
        self.fronts.extend(ours.is_ok().then_some((link, front)));
        self.same_state(ours.is_err().then_some(before), call)
    }

    /// And now and then another one at once, which may find more or less room.
    pub(super) fn any_run_out(&mut self, g: &mut Generator, counts: &mut Counts) -> Compared {
        let time = self.any_time(g, counts);
        for _ in 0..if one_in(g, 4) { 2 } else { 1 } {
            let now = time.max(self.second.latest_time());
            let due = self.second.in_flight().filter(|r| is_due(r, now));
            let room = match due.count() {
                // Mostly enough, so that requests do end.
                count if coin(g) => 2 * count,
                count => room_for(g, count, counts),
            };
            self.run_out(time, room, counts)?;
        }
        Ok(())
    }

    pub(super) fn run_out(&mut self, time: u64, room: usize, counts: &mut Counts) -> Compared {
        let (mut our_out, mut out) = ([-7; 130], [-7; 130]);
        let before = *self.ours.raw();
        let ours = self.ours.run_out(time, &mut our_out[..room]);
        let ours = ours.map(|ends| ends.len()).map_err(|r| r.number());
        let second = self.second.run_out(time, &mut out[..room]);
        let second = second.map_err(number);
        counts.add("run out", second.map(some));
        let call = || format!("run out at {time}, room {room}");
        same("a run-out", call, (ours, our_out), (second, out))?;
        self.same_state(ours.is_err().then_some(before), call)
    }
}

fn deadline_word(timeout: u32) -> &'static str {
    match timeout {
        0 => "without a deadline",
        u32::MAX => "with the largest timeout",
        _ => "with a deadline",
    }
}
