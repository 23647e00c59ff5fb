//! Random lists of calls on a table, with few links and numbers, so that they
//! meet, or with 48 to 64 requests in flight; gone peers of either side, and
//! deadlines by clocks that may go back, with slices that are too short now and
//! then. After each call the table's members are held against one another too.

mod profiles;
mod times;

use crate::compare::{same, Compared};
use crate::counts::Counts;
use crate::draw::{array, coin, one_in, up_to};
use profiles::{Profile, PROFILES};
use reference::clock::{Clock, LARGEST_TIME};
use reference::generator::Generator;
use reference::refusal::Refusal;
use reference::table::{End, Request, Side, Table};
use relay::{raw, FrontNumber, Peer, PublisherNumber};
use std::collections::HashMap;

struct Both {
    ours: relay::Table,
    second: Table,
    /// The front ends of the requests in flight, oldest accepted first.
    fronts: Vec<End>,
    clock: Clock,
}

/// What is called.
#[derive(Clone, Copy)]
enum Kind {
    Ask,
    AskBy,
    Reply,
    Cancel,
    Gone,
    RunOut,
}

/// The words of a call.
trait Call: Fn() -> String + Copy {}
impl<T: Fn() -> String + Copy> Call for T {}

/// What a call hands back: two numbers at most.
type Answer = Result<(i64, i64), u8>;

fn number(refusal: Refusal) -> u8 {
    refusal.number()
}

pub fn case(g: &mut Generator, counts: &mut Counts) -> Compared {
    let random = g.draw() as i64;
    let first = g.pick(&[1, 1, 2, i64::MAX, i64::MAX - 5, random, 0, -1, i64::MIN]);
    let ours = fresh(g, first);
    let second = Table::fresh(first).map_err(number);
    let answers = (ours.as_ref().err(), second.as_ref().err());
    let call = || format!("fresh {first}");
    counts.add("fresh", second.as_ref().map(|_| "table").map_err(|n| *n));
    same("a fresh table", call, answers.0, answers.1)?;
    let (Ok(ours), Ok(second)) = (ours, second) else {
        return Ok(());
    };
    let mut both = Both {
        ours,
        second,
        fronts: Vec::new(),
        clock: times::clock(g),
    };
    let profile = &PROFILES[g.below(PROFILES.len() as u64) as usize];
    for _ in 0..g.pick(&[10, 100, 200, 300]) {
        both.call(g, profile, counts)?;
        counts.add("in flight", Ok(crowd(both.second.count())));
    }
    both.end(g, counts)
}

/// A new table, or one that starts anew where garbage stood; a refusal leaves
/// that as it was.
fn fresh(g: &mut Generator, first: i64) -> Result<relay::Table, u8> {
    let first = PublisherNumber(first);
    if coin(g) {
        return relay::Table::new(first).map_err(|r| r.number());
    }
    let mut table = relay::Table::new(PublisherNumber(1)).expect("1 is a first number");
    let garbage = raw::Table {
        masks: std::array::from_fn(|_| g.draw()),
        numbers: std::array::from_fn(|_| g.draw() as i64),
        places: array(g),
        order: array(g),
        times: std::array::from_fn(|_| g.draw()),
    };
    *table.raw() = garbage;
    match raw::relay_fresh(table.raw(), first) {
        0 => Ok(table),
        refusal => {
            assert_eq!(*table.raw(), garbage);
            Err(refusal)
        }
    }
}

impl Both {
    fn call(&mut self, g: &mut Generator, profile: &Profile, counts: &mut Counts) -> Compared {
        let link = rarely_beyond(g, profile.links, 32);
        let publisher = rarely_beyond(g, profile.publishers, 8);
        let front = 1 + g.below(profile.numbers) as i64;
        let front = if one_in(g, 40) {
            g.pick(&[0, 0, -front, i64::MIN, i64::MAX])
        } else {
            front
        };
        match self.kind(g, profile) {
            Kind::Reply => {
                let (publisher, number) = self.reply_to(g, publisher);
                self.reply(publisher, number, counts)
            }
            Kind::Cancel => {
                let (link, front) = self.cancel_of(g, (link, front));
                self.cancel(link, front, counts)
            }
            Kind::Gone => self.any_gone(g, (link, publisher), counts),
            Kind::RunOut => self.any_run_out(g, counts),
            Kind::Ask => self.ask(link, front, publisher, counts),
            Kind::AskBy => self.any_ask_by(g, (link, front), publisher, counts),
        }
    }

    fn kind(&self, g: &mut Generator, profile: &Profile) -> Kind {
        let asked = if g.below(100) < profile.timed {
            Kind::AskBy
        } else {
            Kind::Ask
        };
        if self.second.count() < profile.fewest {
            return asked;
        }
        let mut roll = g.below(100);
        for (share, kind) in [
            (profile.replies, Kind::Reply),
            (profile.cancels, Kind::Cancel),
            (profile.drops, Kind::Gone),
            (profile.run_outs, Kind::RunOut),
        ] {
            if roll < share {
                return kind;
            }
            roll -= share;
        }
        asked
    }

    /// Mostly what is in flight.
    fn reply_to(&self, g: &mut Generator, publisher: u8) -> (u8, i64) {
        if self.second.count() == 0 || one_in(g, 8) {
            let random = g.draw() as i64;
            return (publisher, g.pick(&[0, 1, 2, 5, -1, i64::MAX, random]));
        }
        let (publisher, number) = self.one_in_flight(g).publisher;
        // A number of another publisher, now and then.
        if one_in(g, 10) {
            ((publisher + 1) % 8, number)
        } else {
            (publisher, number)
        }
    }

    /// What is in flight, or what was drawn.
    fn cancel_of(&self, g: &mut Generator, drawn: End) -> End {
        if self.second.count() == 0 || coin(g) {
            drawn
        } else {
            self.one_in_flight(g).front
        }
    }

    fn one_in_flight(&self, g: &mut Generator) -> &Request {
        let nth = g.below(self.second.count() as u64) as usize;
        self.second.in_flight().nth(nth).expect("one in flight")
    }

    fn ask(&mut self, link: u8, front: i64, publisher: u8, counts: &mut Counts) -> Compared {
        let before = *self.ours.raw();
        let ours = self.ours.ask(link, FrontNumber(front), publisher);
        let ours: Answer = ours.map(|n| (n.0, 0)).map_err(|r| r.number());
        let second = self.second.ask(link, front, publisher);
        let second: Answer = second.map(|n| (n, 0)).map_err(number);
        counts.add("ask", second.map(|_| "accepted"));
        let call = || format!("ask {link}/{front}/{publisher}");
        same("an ask", call, ours, second)?;
        self.fronts.extend(ours.is_ok().then_some((link, front)));
        self.same_state(ours.is_err().then_some(before), call)
    }

    fn reply(&mut self, publisher: u8, number_: i64, counts: &mut Counts) -> Compared {
        let before = *self.ours.raw();
        let ours = self.ours.reply(publisher, PublisherNumber(number_));
        let ours: Answer = ours
            .map(|(link, n)| (link.into(), n.0))
            .map_err(|r| r.number());
        let second = self.second.reply(publisher, number_);
        let second: Answer = second.map(|(link, n)| (link.into(), n)).map_err(number);
        counts.add("reply", second.map(|_| "front"));
        let call = || format!("reply {publisher}/{number_}");
        same("a reply", call, ours, second)?;
        self.same_state(ours.is_err().then_some(before), call)
    }

    fn cancel(&mut self, link: u8, front: i64, counts: &mut Counts) -> Compared {
        let before = *self.ours.raw();
        let ours = self.ours.cancel(link, FrontNumber(front));
        let ours: Answer = ours
            .map(|(publisher, n)| (publisher.into(), n.0))
            .map_err(|r| r.number());
        let second = self.second.cancel(link, front);
        let second: Answer = second
            .map(|(publisher, n)| (publisher.into(), n))
            .map_err(number);
        counts.add("cancel", second.map(|_| "publisher"));
        let call = || format!("cancel {link}/{front}");
        same("a cancel", call, ours, second)?;
        self.same_state(ours.is_err().then_some(before), call)
    }

    /// A peer of either side, and now and then that of the same number on the
    /// other side behind it, which may be out of range there.
    fn any_gone(&mut self, g: &mut Generator, drawn: (u8, u8), counts: &mut Counts) -> Compared {
        let (link, publisher) = drawn;
        let side = g.pick(&Side::BOTH);
        let number = match side {
            _ if one_in(g, 10) => g.pick(&[7, 8, 31, 32, 255]),
            Side::Front => link,
            Side::Publisher => publisher,
        };
        let room = self.room(g, side, number, counts);
        self.gone(side, number, room, counts)?;
        if one_in(g, 4) {
            let side = side.other();
            let room = self.room(g, side, number, counts);
            self.gone(side, number, room, counts)?;
        }
        Ok(())
    }

    /// A room for the ends of a peer's requests.
    fn room(&self, g: &mut Generator, side: Side, number: u8, counts: &mut Counts) -> usize {
        let is_its = |request: &&Request| match side {
            Side::Front => request.front.0 == number,
            Side::Publisher => request.publisher.0 == number,
        };
        room_for(g, self.second.in_flight().filter(is_its).count(), counts)
    }

    fn gone(&mut self, side: Side, number_: u8, room: usize, counts: &mut Counts) -> Compared {
        let (mut our_out, mut out) = ([-7; 130], [-7; 130]);
        let before = *self.ours.raw();
        let (name, peer) = match side {
            Side::Front => ("gone front end", Peer::Front(number_)),
            Side::Publisher => ("gone publisher", Peer::Publisher(number_)),
        };
        let ours = self.ours.gone(peer, &mut our_out[..room]);
        let ours = ours.map(|ends| ends.len()).map_err(|r| r.number());
        let second = self.second.gone(side, number_, &mut out[..room]);
        let second = second.map_err(number);
        counts.add(name, second.map(some));
        let call = || format!("gone {peer}, room {room}");
        same("a gone peer", call, (ours, our_out), (second, out))?;
        self.same_state(ours.is_err().then_some(before), call)
    }

    /// The table after a call; what it was before, where the call was refused.
    fn same_state(&mut self, refused: Option<raw::Table>, call: impl Call) -> Compared {
        if let Some(before) = refused {
            same(
                "the table of a refused call",
                call,
                *self.ours.raw(),
                before,
            )?;
        }
        holds_together(self.ours.raw(), self.second.count(), call)?;
        self.same_requests(call)
    }

    /// The requests in flight, oldest first; the second program's have no order
    /// but that in which they were asked.
    fn same_requests(&mut self, call: impl Call) -> Compared {
        let table = self.ours.raw();
        let end = |i: usize| (table.places[i], table.numbers[i]);
        let deadline = |i: usize| Some(table.times[i]).filter(|&time| time != 0);
        let ours = oldest_first(table)
            .into_iter()
            .map(|i| (end(i), (end(64 + i), deadline(i))))
            .collect::<Vec<_>>();
        let latest = self.second.latest_time();
        same("the latest time seen", call, table.times[64], latest)?;
        let of = |r: &Request| (r.front, (r.publisher, r.deadline()));
        let others: HashMap<End, (End, Option<u64>)> = self.second.in_flight().map(of).collect();
        self.fronts.retain(|front| others.contains_key(front));
        let second = self.fronts.iter().map(|front| (*front, others[front]));
        same("the requests in flight", call, ours, second.collect())
    }

    /// Now and then all deadlines come. All publishers are lost, and each is asked
    /// once more.
    fn end(&mut self, g: &mut Generator, counts: &mut Counts) -> Compared {
        if coin(g) {
            self.run_out(LARGEST_TIME, 128, counts)?;
        }
        for publisher in 0..8 {
            self.gone(Side::Publisher, publisher, 32, counts)?;
            self.ask(publisher, 1, publisher, counts)?;
        }
        Ok(())
    }
}

/// The used slots, by their places in the order of acceptance.
fn oldest_first(table: &raw::Table) -> Vec<usize> {
    let used = (0..64).filter(|i| table.masks[0] >> i & 1 == 1);
    let mut used: Vec<usize> = used.collect();
    used.sort_unstable_by_key(|&i| table.order[i]);
    used
}

/// What a table's members say of one another: as many ones as requests, each
/// used slot with one publisher, and with a place of its own, from 0 on.
fn holds_together(table: &raw::Table, count: usize, call: impl Call) -> Compared {
    let [used, of_publishers @ ..] = table.masks;
    same("used slots", call, used.count_ones() as usize, count)?;
    let all = of_publishers.iter().fold(0, |all, mask| all | mask);
    let ones = of_publishers.iter().map(|mask| mask.count_ones() as usize);
    same(
        "slots of publishers",
        call,
        (all, ones.sum()),
        (used, count),
    )?;
    let places = oldest_first(table)
        .into_iter()
        .map(|i| usize::from(table.order[i]))
        .collect::<Vec<_>>();
    same("places of used slots", call, places, (0..count).collect())?;
    for (publisher, mask) in of_publishers.into_iter().enumerate() {
        let here = |i: &usize| usize::from(table.places[64 + i]) == publisher;
        let slots = (0..64).filter(|i| used >> i & 1 == 1).filter(here);
        let slots = slots.fold(0, |all, i| all | 1 << i);
        same("slots of a publisher", call, mask, slots)?;
    }
    Ok(())
}

/// A room for the ends of so many requests: enough, or not.
fn room_for(g: &mut Generator, count: usize, counts: &mut Counts) -> usize {
    let needed = 2 * count;
    let less = up_to(g, needed);
    let odd = 2 * up_to(g, 64) + 1;
    let (kind, room) = g.pick(&[
        ("just enough", needed),
        ("one less", needed.saturating_sub(1)),
        ("one more", needed + 1),
        ("less", less),
        ("odd", odd),
        ("0", 0),
        ("128", 128),
        ("130", 130),
    ]);
    counts.add("room for ends", Ok(kind));
    room
}

/// How full a table is.
fn crowd(count: usize) -> &'static str {
    match count {
        0..16 => "0 to 15",
        16..48 => "16 to 47",
        48..64 => "48 to 63",
        _ => "64",
    }
}

fn some(count: usize) -> &'static str {
    match count {
        0 => "none",
        1 => "one",
        _ => "several",
    }
}

/// A number below `end`, now and then from `limit` on or just below it.
fn rarely_beyond(g: &mut Generator, end: u64, limit: u8) -> u8 {
    if one_in(g, 50) {
        g.pick(&[limit - 1, limit, limit + 1, 128, 255])
    } else {
        g.below(end) as u8
    }
}
