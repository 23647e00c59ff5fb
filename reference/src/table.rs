//! The table of requests in flight ("ticket table" in document 01).
//!
//! A request is found by either of its ends through a hash map; its serial
//! number gives the order of acceptance, by which a gone peer's are listed, and
//! those that ran out.

#[cfg(test)]
pub(crate) mod book;
#[cfg(test)]
mod tests;

use crate::refusal::Refusal;
use std::collections::HashMap;

pub const LINKS: u8 = 32;
pub const PUBLISHERS: u8 = 8;
/// The most requests the table holds.
pub const ROOM: usize = 64;
/// What each publisher may always have in flight, and thus keeps reserved.
const RESERVED: usize = 4;
/// What no publisher may exceed.
const LARGEST_LOAD: usize = 16;
/// Times are below this (document 02, A2).
const TIME_END: u64 = 1 << 62;

/// One end of a request: a front link and its number, or a publisher and its.
pub type End = (u8, i64);

/// The side that a peer stands on: front links or publishers.
#[derive(Clone, Copy, Debug, PartialEq, Eq)]
pub enum Side {
    Front,
    Publisher,
}

impl Side {
    pub const BOTH: [Side; 2] = [Side::Front, Side::Publisher];

    /// Whichever of the two belongs to this side.
    pub fn of<T>(self, front: T, publisher: T) -> T {
        match self {
            Side::Front => front,
            Side::Publisher => publisher,
        }
    }

    pub fn other(self) -> Side {
        self.of(Side::Publisher, Side::Front)
    }

    /// How many peers the side has.
    fn peers(self) -> u8 {
        self.of(LINKS, PUBLISHERS)
    }
}

#[derive(Clone, Copy)]
#[cfg_attr(test, derive(Debug, PartialEq))]
pub struct Request {
    /// Front link and front number.
    pub front: End,
    /// Publisher and publisher number.
    pub publisher: End,
    deadline: Option<u64>,
    serial: u64,
}

impl Request {
    /// The time at which it may be run out, if there is one.
    pub fn deadline(&self) -> Option<u64> {
        self.deadline
    }

    fn runs_out_by(&self, time: u64) -> bool {
        self.deadline.is_some_and(|deadline| deadline <= time)
    }

    fn end(&self, side: Side) -> End {
        side.of(self.front, self.publisher)
    }
}

#[cfg_attr(test, derive(Clone, Debug, PartialEq))]
pub struct Table {
    slots: [Option<Request>; ROOM],
    free: Vec<usize>,
    by_front: HashMap<End, usize>,
    by_publisher: HashMap<End, usize>,
    loads: [usize; PUBLISHERS as usize],
    /// Where each publisher's search for its next number begins.
    next: [i64; PUBLISHERS as usize],
    accepted: u64,
    /// Of all times that calls which were not refused have brought.
    latest_time: u64,
}

impl Table {
    /// An empty table; `first` is the first number of every publisher.
    pub fn fresh(first: i64) -> Result<Table, Refusal> {
        if first < 1 {
            return Err(Refusal::OutOfRange);
        }
        Ok(Table {
            slots: [None; ROOM],
            free: (0..ROOM).rev().collect(),
            by_front: HashMap::with_capacity(ROOM),
            by_publisher: HashMap::with_capacity(ROOM),
            loads: [0; PUBLISHERS as usize],
            next: [first; PUBLISHERS as usize],
            accepted: 0,
            latest_time: 0,
        })
    }

    /// Accepts a request that never runs out; hands back its publisher number.
    pub fn ask(&mut self, link: u8, number: i64, publisher: u8) -> Result<i64, Refusal> {
        self.may_ask(link, number, publisher)?;
        Ok(self.accept((link, number), publisher, None))
    }

    /// As `ask`, at a time in ms and with a timeout, for none 0.
    pub fn ask_by(
        &mut self,
        link: u8,
        number: i64,
        publisher: u8,
        time: u64,
        timeout: u32,
    ) -> Result<i64, Refusal> {
        let now = self.latest_with(time)?;
        self.may_ask(link, number, publisher)?;
        self.latest_time = now;
        // A sum below 2^62 + 2^32.
        let deadline = (timeout > 0).then(|| now + u64::from(timeout));
        Ok(self.accept((link, number), publisher, deadline))
    }

    /// Frees the request a publisher answered; hands back its front end.
    pub fn reply(&mut self, publisher: u8, number: i64) -> Result<End, Refusal> {
        in_range(publisher, PUBLISHERS)?;
        not_zero(number)?;
        let slot = self.by_publisher.get(&(publisher, number));
        let slot = *slot.ok_or(Refusal::NotInFlight)?;
        Ok(self.remove(slot).front)
    }

    /// Frees the request a front end cancelled; hands back its publisher end.
    pub fn cancel(&mut self, link: u8, number: i64) -> Result<End, Refusal> {
        in_range(link, LINKS)?;
        not_zero(number)?;
        let slot = self.by_front.get(&(link, number));
        let slot = *slot.ok_or(Refusal::NotInFlight)?;
        Ok(self.remove(slot).publisher)
    }

    /// Frees all requests of the peer with this number on its side, oldest
    /// accepted first; writes their ends on the other side, and hands back how
    /// many they were.
    pub fn gone(&mut self, side: Side, number: u8, ends: &mut [i64]) -> Result<usize, Refusal> {
        in_range(number, side.peers())?;
        let slots = self.oldest_first(|request| request.end(side).0 == number);
        self.free_all(&slots, side.other(), ends)
    }

    /// Frees all requests whose deadline is at or before the latest time seen,
    /// `time` among them, oldest accepted first; writes their front ends, and
    /// hands back how many they were.
    pub fn run_out(&mut self, time: u64, ends: &mut [i64]) -> Result<usize, Refusal> {
        let now = self.latest_with(time)?;
        let slots = self.oldest_first(|request| request.runs_out_by(now));
        let count = self.free_all(&slots, Side::Front, ends)?;
        self.latest_time = now;
        Ok(count)
    }

    /// The latest time seen; 0 if none was.
    pub fn latest_time(&self) -> u64 {
        self.latest_time
    }

    /// The requests in flight, in no particular order.
    pub fn in_flight(&self) -> impl Iterator<Item = &Request> {
        self.slots.iter().flatten()
    }

    pub fn count(&self) -> usize {
        ROOM - self.free.len()
    }

    /// The latest time seen once `time` is among those seen.
    fn latest_with(&self, time: u64) -> Result<u64, Refusal> {
        if time < TIME_END {
            Ok(self.latest_time.max(time))
        } else {
            Err(Refusal::OutOfRange)
        }
    }

    /// Every row that refuses an ask, but for its time.
    fn may_ask(&self, link: u8, number: i64, publisher: u8) -> Result<(), Refusal> {
        in_range(link, LINKS)?;
        in_range(publisher, PUBLISHERS)?;
        not_zero(number)?;
        if self.by_front.contains_key(&(link, number)) {
            return Err(Refusal::InFlightAlready);
        }
        self.has_room(publisher)
    }

    /// The room rule of demand 3. A publisher under its reserve always has
    /// room, since the sum counts the reserves of all as used.
    fn has_room(&self, publisher: u8) -> Result<(), Refusal> {
        let load = self.loads[usize::from(publisher)];
        if load < RESERVED {
            return Ok(());
        }
        if load == LARGEST_LOAD {
            return Err(Refusal::LoadFull);
        }
        let used: usize = self.loads.iter().map(|&load| load.max(RESERVED)).sum();
        if used == ROOM {
            return Err(Refusal::SharedRoomGone);
        }
        Ok(())
    }

    /// The publisher's next number, passing over those in flight with it.
    fn take_number(&mut self, publisher: u8) -> i64 {
        let next = &mut self.next[usize::from(publisher)];
        while self.by_publisher.contains_key(&(publisher, *next)) {
            *next = successor(*next);
        }
        let number = *next;
        *next = successor(number);
        number
    }

    /// Takes in a request that may be asked; hands back its publisher number.
    fn accept(&mut self, front: End, publisher: u8, deadline: Option<u64>) -> i64 {
        let number = self.take_number(publisher);
        self.insert(front, (publisher, number), deadline);
        number
    }

    fn insert(&mut self, front: End, publisher: End, deadline: Option<u64>) {
        // The room rule never lets the loads add up to more than the slots.
        let slot = self.free.pop().expect("a free slot");
        let serial = self.accepted;
        self.accepted += 1;
        self.slots[slot] = Some(Request {
            front,
            publisher,
            deadline,
            serial,
        });
        self.by_front.insert(front, slot);
        self.by_publisher.insert(publisher, slot);
        self.loads[usize::from(publisher.0)] += 1;
    }

    fn remove(&mut self, slot: usize) -> Request {
        let request = self.slots[slot].take().expect("a request in flight");
        self.free.push(slot);
        self.by_front.remove(&request.front);
        self.by_publisher.remove(&request.publisher);
        self.loads[usize::from(request.publisher.0)] -= 1;
        request
    }

    /// Frees the requests in `slots` and writes their ends of one side, if the
    /// slice has room for all; hands back how many they were.
    fn free_all(
        &mut self,
        slots: &[usize],
        side: Side,
        ends: &mut [i64],
    ) -> Result<usize, Refusal> {
        if ends.len() / 2 < slots.len() {
            return Err(Refusal::BufferTooSmall);
        }
        for (&slot, pair) in slots.iter().zip(ends.chunks_exact_mut(2)) {
            let (peer, number) = self.remove(slot).end(side);
            pair.copy_from_slice(&[i64::from(peer), number]);
        }
        Ok(slots.len())
    }

    /// The slots of the requests chosen, in the order of acceptance.
    fn oldest_first(&self, chosen: impl Fn(&Request) -> bool) -> Vec<usize> {
        let serial_and_slot = |(slot, entry): (usize, &Option<Request>)| match entry {
            Some(request) if chosen(request) => Some((request.serial, slot)),
            _ => None,
        };
        let mut found: Vec<(u64, usize)> = self
            .slots
            .iter()
            .enumerate()
            .filter_map(serial_and_slot)
            .collect();
        found.sort_unstable();
        found.into_iter().map(|(_, slot)| slot).collect()
    }
}

fn in_range(index: u8, end: u8) -> Result<(), Refusal> {
    if index < end {
        Ok(())
    } else {
        Err(Refusal::OutOfRange)
    }
}

fn not_zero(number: i64) -> Result<(), Refusal> {
    if number != 0 {
        Ok(())
    } else {
        Err(Refusal::QueryNumberZero)
    }
}

/// The number after `number`: publisher numbers run from 1 to the largest.
fn successor(number: i64) -> i64 {
    number.checked_add(1).unwrap_or(1)
}
