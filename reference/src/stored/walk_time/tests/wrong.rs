//! A table with one mistake in what it does with times: the book of documents
//! 01 and 02 with one thing gone wrong.

mod asks;
mod run_outs;

use super::mistake::{Call, Mistake, Move};
use crate::event::{Answer, Event};
use crate::refusal::Refusal;
use crate::table::book::{Book, Entry};
use crate::table::{End, Side};

pub struct Wrong {
    book: Book,
    mistake: Mistake,
    /// By the last run-out that freed any.
    freed: Vec<Entry>,
    /// The lowest free place is taken first.
    places: Vec<Option<Entry>>,
    /// The deadline that each place held last.
    left_over: Vec<Option<u64>>,
}

impl Wrong {
    pub fn fresh(first: i64, mistake: Mistake) -> Result<Wrong, Refusal> {
        let mut book = Book::fresh(first)?;
        book.latest_time_seen = u64::from(mistake == Mistake::FreshHasSeen1);
        Ok(Wrong {
            book,
            mistake,
            freed: Vec::new(),
            places: Vec::new(),
            left_over: Vec::new(),
        })
    }

    pub fn call(&mut self, event: Event, ends: &mut [i64]) -> Result<Answer, Refusal> {
        let answer = match event {
            Event::Ask(link, number, publisher) => self.old_ask((link, number), publisher),
            Event::AskBy(link, number, publisher, time, timeout) => {
                self.ask_by((link, number), publisher, time, timeout)
            }
            Event::RunOut(time) => self.run_out(time, ends).map(Answer::RunOut),
            Event::Reply(..) | Event::Cancel(..) => self.free_one(event),
            Event::Gone(side, number) => {
                let count = self.gone(side, number, ends);
                count.map(|count| Answer::Gone(side, count))
            }
        };
        self.move_time(event);
        self.keep_places();
        answer
    }

    fn move_time(&mut self, event: Event) {
        let call = match event {
            Event::Ask(..) => Call::Ask,
            Event::Reply(..) => Call::Reply,
            Event::Cancel(..) => Call::Cancel,
            Event::Gone(side, _) => Call::Gone(side),
            Event::AskBy(..) | Event::RunOut(_) => return,
        };
        let latest = &mut self.book.latest_time_seen;
        if self.mistake == Mistake::MovesTime(call, Move::On) {
            *latest += 1;
        }
        if self.mistake == Mistake::MovesTime(call, Move::Back) {
            *latest = 0;
        }
    }

    /// Reply or cancel.
    fn free_one(&mut self, event: Event) -> Result<Answer, Refusal> {
        let (side, wanted) = match event {
            Event::Reply(publisher, number) => (Side::Publisher, (publisher, number)),
            Event::Cancel(link, number) => (Side::Front, (link, number)),
            _ => unreachable!("neither a reply nor a cancel"),
        };
        let replied = side == Side::Publisher;
        let found = |entries: &[Entry]| {
            let found = entries.iter().find(|entry| end(entry, side) == wanted);
            found.copied()
        };
        let late = match self.mistake {
            Mistake::OverdueNotReplied => replied,
            Mistake::OverdueNotCancelled => !replied,
            _ => false,
        };
        if late && found(&self.book.entries).is_some_and(|entry| self.is_overdue(&entry)) {
            return Err(Refusal::NotInFlight);
        }
        let answer = self.book.call(event, &mut []);
        match (self.mistake, answer, found(&self.freed)) {
            (Mistake::StillReplied, Err(Refusal::NotInFlight), Some(entry)) if replied => {
                Ok(Answer::Reply(end(&entry, Side::Front)))
            }
            (Mistake::StillCancelled, Err(Refusal::NotInFlight), Some(entry)) if !replied => {
                Ok(Answer::Cancel(end(&entry, Side::Publisher)))
            }
            _ => answer,
        }
    }

    fn gone(&mut self, side: Side, number: u8, ends: &mut [i64]) -> Result<usize, Refusal> {
        let mut listed = self.book.clone();
        if self.mistake == Mistake::StillListedFor(side) {
            listed.entries.extend(self.freed.iter());
        }
        if self.mistake == Mistake::OverdueNotListedFor(side) {
            listed.entries.retain(|entry| !self.is_overdue(entry));
        }
        let answer = listed.call(Event::Gone(side, number), ends)?;
        self.book.call(Event::Gone(side, number), &mut [0; 256])?;
        let Answer::Gone(_, count) = answer else {
            unreachable!("an answer to another call");
        };
        Ok(count.min(64))
    }

    /// By the latest time seen.
    fn is_overdue(&self, entry: &Entry) -> bool {
        due(entry, self.book.latest_time_seen)
    }

    fn keep_places(&mut self) {
        let entries = &self.book.entries;
        for (place, left_over) in self.places.iter_mut().zip(&mut self.left_over) {
            if let Some(entry) = place {
                *left_over = entry.deadline;
            }
            *place = place.filter(|taken| has(entries, taken));
        }
        for entry in entries {
            if !has(self.places.iter().flatten(), entry) {
                let place = self.lowest_free_place();
                if place == self.places.len() {
                    self.places.push(None);
                    self.left_over.push(None);
                }
                self.places[place] = Some(*entry);
            }
        }
    }

    fn lowest_free_place(&self) -> usize {
        let free = self.places.iter().position(|place| place.is_none());
        free.unwrap_or(self.places.len())
    }
}

fn due(entry: &Entry, time: u64) -> bool {
    entry.deadline.is_some_and(|deadline| deadline <= time)
}

fn end(entry: &Entry, side: Side) -> End {
    let front = (entry.link, entry.front_number);
    side.of(front, (entry.publisher, entry.publisher_number))
}

/// No two requests in flight have the same publisher end.
fn has<'a>(entries: impl IntoIterator<Item = &'a Entry>, wanted: &Entry) -> bool {
    let publisher = end(wanted, Side::Publisher);
    let mut ends = entries.into_iter().map(|entry| end(entry, Side::Publisher));
    ends.any(|other| other == publisher)
}
