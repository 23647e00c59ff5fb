//! The book of documents 01 and 02 (A2), word for word: a plain list of
//! entries, searched from the front, and the latest time seen. Slow and
//! obvious; the tests hold the table against it.

use super::{End, Side};
use crate::event::{Answer, Event};
use crate::refusal::Refusal;

#[derive(Clone, Copy)]
pub struct Entry {
    pub link: u8,
    pub front_number: i64,
    pub publisher: u8,
    pub publisher_number: i64,
    pub deadline: Option<u64>,
}

#[derive(Clone)]
pub struct Book {
    /// In the order of acceptance.
    pub entries: Vec<Entry>,
    pub first: i64,
    pub last: [Option<i64>; 8],
    pub latest_time_seen: u64,
}

impl Book {
    pub fn fresh(first: i64) -> Result<Book, Refusal> {
        match first {
            1.. => Ok(Book {
                entries: Vec::new(),
                first,
                last: [None; 8],
                latest_time_seen: 0,
            }),
            _ => Err(Refusal::OutOfRange),
        }
    }

    pub fn call(&mut self, event: Event, ends: &mut [i64]) -> Result<Answer, Refusal> {
        match event {
            Event::Ask(link, number, publisher) => {
                self.ask(link, number, publisher).map(Answer::Ask)
            }
            Event::Reply(publisher, number) => self.reply(publisher, number).map(Answer::Reply),
            Event::Cancel(link, number) => self.cancel(link, number).map(Answer::Cancel),
            Event::Gone(side, number) => {
                let count = self.gone(side, number, ends);
                count.map(|count| Answer::Gone(side, count))
            }
            Event::AskBy(link, number, publisher, time, timeout) => {
                let end = (link, number);
                self.ask_by(end, publisher, time, timeout).map(Answer::Ask)
            }
            Event::RunOut(time) => self.run_out(time, ends).map(Answer::RunOut),
        }
    }

    pub fn load(&self, publisher: u8) -> usize {
        let of_publisher = |entry: &&Entry| entry.publisher == publisher;
        self.entries.iter().filter(of_publisher).count()
    }

    fn ask(&mut self, link: u8, front_number: i64, publisher: u8) -> Result<i64, Refusal> {
        if link > 31 || publisher > 7 {
            return Err(Refusal::OutOfRange);
        }
        if front_number == 0 {
            return Err(Refusal::QueryNumberZero);
        }
        if self.of_front(link, front_number).is_some() {
            return Err(Refusal::InFlightAlready);
        }
        let sum: usize = (0..8).map(|p| self.load(p).max(4)).sum();
        match self.load(publisher) {
            0..4 => {}
            4..16 if sum == 64 => return Err(Refusal::SharedRoomGone),
            4..16 => {}
            _ => return Err(Refusal::LoadFull),
        }
        let publisher_number = self.next(publisher);
        self.last[usize::from(publisher)] = Some(publisher_number);
        self.entries.push(Entry {
            link,
            front_number,
            publisher,
            publisher_number,
            deadline: None,
        });
        Ok(publisher_number)
    }

    /// An old ask; if that is accepted, the time is seen and the entry, which
    /// is the last, gets its deadline.
    fn ask_by(&mut self, end: End, publisher: u8, time: u64, ms: u32) -> Result<i64, Refusal> {
        if time >= 4_611_686_018_427_387_904 {
            return Err(Refusal::OutOfRange);
        }
        let publisher_number = self.ask(end.0, end.1, publisher)?;
        self.see(time);
        if let (Some(entry), 1..) = (self.entries.last_mut(), ms) {
            entry.deadline = Some(self.latest_time_seen + u64::from(ms));
        }
        Ok(publisher_number)
    }

    fn see(&mut self, time: u64) {
        if time > self.latest_time_seen {
            self.latest_time_seen = time;
        }
    }

    fn run_out(&mut self, time: u64, ends: &mut [i64]) -> Result<usize, Refusal> {
        if time >= 4_611_686_018_427_387_904 {
            return Err(Refusal::OutOfRange);
        }
        let mut after = self.clone();
        after.see(time);
        let (mut list, mut left) = (Vec::new(), Vec::new());
        for entry in &self.entries {
            match entry.deadline {
                Some(deadline) if deadline <= after.latest_time_seen => {
                    list.extend([i64::from(entry.link), entry.front_number]);
                }
                _ => left.push(*entry),
            }
        }
        if ends.len() < list.len() {
            return Err(Refusal::BufferTooSmall);
        }
        ends[..list.len()].copy_from_slice(&list);
        after.entries = left;
        *self = after;
        Ok(list.len() / 2)
    }

    fn next(&self, publisher: u8) -> i64 {
        let after = |number| if number == i64::MAX { 1 } else { number + 1 };
        let last = self.last[usize::from(publisher)];
        let mut number = last.map_or(self.first, after);
        while self.of_publisher(publisher, number).is_some() {
            number = after(number);
        }
        number
    }

    fn of_front(&self, link: u8, number: i64) -> Option<usize> {
        let this = |entry: &Entry| entry.link == link && entry.front_number == number;
        self.entries.iter().position(this)
    }

    fn of_publisher(&self, publisher: u8, number: i64) -> Option<usize> {
        let this = |entry: &Entry| entry.publisher == publisher && entry.publisher_number == number;
        self.entries.iter().position(this)
    }

    fn reply(&mut self, publisher: u8, number: i64) -> Result<End, Refusal> {
        if publisher > 7 {
            return Err(Refusal::OutOfRange);
        }
        if number == 0 {
            return Err(Refusal::QueryNumberZero);
        }
        let place = self.of_publisher(publisher, number);
        let entry = self.entries.remove(place.ok_or(Refusal::NotInFlight)?);
        Ok((entry.link, entry.front_number))
    }

    fn cancel(&mut self, link: u8, number: i64) -> Result<End, Refusal> {
        if link > 31 {
            return Err(Refusal::OutOfRange);
        }
        if number == 0 {
            return Err(Refusal::QueryNumberZero);
        }
        let place = self.of_front(link, number);
        let entry = self.entries.remove(place.ok_or(Refusal::NotInFlight)?);
        Ok((entry.publisher, entry.publisher_number))
    }

    fn gone(&mut self, side: Side, number: u8, ends: &mut [i64]) -> Result<usize, Refusal> {
        let last = match side {
            Side::Front => 31,
            Side::Publisher => 7,
        };
        if number > last {
            return Err(Refusal::OutOfRange);
        }
        let struck = |entry: &&Entry| match side {
            Side::Front => entry.link == number,
            Side::Publisher => entry.publisher == number,
        };
        let other_end = |entry: &Entry| match side {
            Side::Front => [i64::from(entry.publisher), entry.publisher_number],
            Side::Publisher => [i64::from(entry.link), entry.front_number],
        };
        let list: Vec<i64> = self
            .entries
            .iter()
            .filter(struck)
            .flat_map(other_end)
            .collect();
        if ends.len() < list.len() {
            return Err(Refusal::BufferTooSmall);
        }
        ends[..list.len()].copy_from_slice(&list);
        self.entries.retain(|entry| !struck(&entry));
        Ok(list.len() / 2)
    }
}
