//! A table with one mistake, on one side, in what it does for a gone peer: the
//! book of document 01 with that call gone wrong.

use super::mistake::Mistake;
use crate::event::{Answer, Event};
use crate::refusal::Refusal;
use crate::table::book::{Book, Entry};
use crate::table::{End, Side, ROOM};

pub struct Wrong {
    book: Book,
    mistake: Mistake,
    side: Side,
    /// By the last peer of the side that was gone.
    freed: Vec<Entry>,
    /// The lowest free place is taken first.
    places: [Option<Entry>; ROOM],
}

impl Wrong {
    pub fn fresh(first: i64, mistake: Mistake, side: Side) -> Result<Wrong, Refusal> {
        Ok(Wrong {
            book: Book::fresh(first)?,
            mistake,
            side,
            freed: Vec::new(),
            places: [None; ROOM],
        })
    }

    pub fn call(&mut self, event: Event, ends: &mut [i64]) -> Result<Answer, Refusal> {
        let answer = match event {
            Event::Gone(side, number) if side == self.side => {
                let count = self.gone(number, ends);
                count.map(|count| Answer::Gone(side, count))
            }
            Event::Ask(link, number, publisher) => self.ask(link, number, publisher),
            _ => self.free_one(event, ends),
        };
        self.keep_places();
        answer
    }

    fn gone(&mut self, number: u8, ends: &mut [i64]) -> Result<usize, Refusal> {
        let number = self.in_range(number)?;
        let listed = self.listed(number);
        if listed.is_empty() && self.mistake == Mistake::NoneIsRefused {
            return Err(Refusal::NotInFlight);
        }
        for (entry, pair) in listed.iter().zip(ends.chunks_exact_mut(2)) {
            pair.copy_from_slice(&self.written(entry));
        }
        let count = match self.mistake {
            Mistake::CountOfTheOtherSide => self.of(self.side.other(), number).len(),
            Mistake::LongestListCut => listed.len().min(self.side.of(63, 15)),
            _ => listed.len(),
        };
        self.strike(number);
        Ok(count)
    }

    fn in_range(&self, number: u8) -> Result<u8, Refusal> {
        let own = self.side.of(32, 8);
        let end = match self.mistake {
            Mistake::LimitOfTheOtherSide => self.side.of(8, 32),
            Mistake::OneNumberMore => own + 1,
            Mistake::AnyNumber => return Ok(number),
            Mistake::LowBitsOfTheNumber => return Ok(number % own),
            _ => own,
        };
        if number < end {
            Ok(number)
        } else {
            Err(Refusal::OutOfRange)
        }
    }

    /// A peer's requests in the order of acceptance.
    fn of(&self, side: Side, number: u8) -> Vec<Entry> {
        of_peer(&self.book.entries, side, number)
    }

    fn listed(&self, number: u8) -> Vec<Entry> {
        let (own, other) = (self.side, self.side.other());
        let mut listed = self.of(own, number);
        match self.mistake {
            Mistake::SidesSwapped => listed = self.of(other, number),
            Mistake::BothSidesListed => {
                let mut others = self.of(other, number);
                others.retain(|entry| end(entry, own).0 != number);
                listed.extend(others);
            }
            Mistake::NewestFirst => listed.reverse(),
            Mistake::ByPlace => listed = of_peer(self.places.iter().flatten(), own, number),
            Mistake::ByPeer => listed.sort_by_key(|entry| end(entry, other).0),
            Mistake::ByNumber => listed.sort_by_key(|entry| end(entry, other).1),
            Mistake::ByOwnNumber => listed.sort_by_key(|entry| end(entry, own).1),
            Mistake::StillListed => listed.extend(of_peer(&self.freed, own, number)),
            _ => {}
        }
        listed
    }

    fn written(&self, entry: &Entry) -> [i64; 2] {
        let own = end(entry, self.side);
        let (peer, number) = end(entry, self.side.other());
        let (peer, number) = match self.mistake {
            Mistake::OwnEnd => own,
            Mistake::OwnNumber => (peer, own.1),
            Mistake::NumberOf32Bits => (peer, i64::from(number as i32)),
            Mistake::NumberClipped => (peer, number.clamp(-i64::MAX, i64::MAX - 1)),
            _ => (peer, number),
        };
        [peer.into(), number]
    }

    fn strike(&mut self, number: u8) {
        let (own, other) = (self.side, self.side.other());
        self.freed = self.of(own, number);
        match self.mistake {
            Mistake::SidesSwapped => self.freed = self.of(other, number),
            Mistake::BothSidesFreed | Mistake::BothSidesListed => {
                self.freed.extend(self.of(other, number));
            }
            Mistake::OneFreed => self.freed.truncate(1),
            Mistake::NewestStays if self.freed.len() > 1 => drop(self.freed.pop()),
            Mistake::NumberingStartsAnew => {
                for entry in &self.freed {
                    self.book.last[usize::from(entry.publisher)] = None;
                }
            }
            _ => {}
        }
        let entries = &mut self.book.entries;
        let oldest = entries.iter().position(|entry| has(&self.freed, entry));
        entries.retain(|entry| !has(&self.freed, entry));
        if let (Mistake::RestOutOfOrder, Some(hole)) = (self.mistake, oldest) {
            // The newest takes the place of the oldest that was freed.
            if let Some(newest) = entries.pop() {
                entries.insert(hole.min(entries.len()), newest);
            }
        }
    }

    /// An ask that the book accepts may meet what was freed.
    fn ask(&mut self, link: u8, number: i64, publisher: u8) -> Result<Answer, Refusal> {
        let mut after = self.book.clone();
        let answer = after.call(Event::Ask(link, number, publisher), &mut [])?;
        let asked = |entry: &Entry| end(entry, Side::Front) == (link, number);
        let in_flight = self.freed.iter().any(asked);
        let load = |publisher| {
            let freed = of_peer(&self.freed, Side::Publisher, publisher);
            self.book.load(publisher) + freed.len()
        };
        let room = || {
            (0..8)
                .map(|publisher| load(publisher).max(4))
                .sum::<usize>()
        };
        match self.mistake {
            Mistake::StillInFlight if in_flight => Err(Refusal::InFlightAlready),
            Mistake::StillInLoad if load(publisher) >= 16 => Err(Refusal::LoadFull),
            Mistake::StillInRoom if self.book.load(publisher) >= 4 && room() >= 64 => {
                Err(Refusal::SharedRoomGone)
            }
            _ => {
                self.book = after;
                Ok(answer)
            }
        }
    }

    /// Reply, cancel, or a gone peer of the side that has no mistake.
    fn free_one(&mut self, event: Event, ends: &mut [i64]) -> Result<Answer, Refusal> {
        let answer = self.book.call(event, ends);
        if answer != Err(Refusal::NotInFlight) {
            return answer;
        }
        let freed = |side, wanted| {
            let found = self.freed.iter().find(|entry| end(entry, side) == wanted);
            found.map(|entry| end(entry, side.other()))
        };
        let found = match (self.mistake, event) {
            (Mistake::StillReplied, Event::Reply(publisher, number)) => {
                freed(Side::Publisher, (publisher, number)).map(Answer::Reply)
            }
            (Mistake::StillCancelled, Event::Cancel(link, number)) => {
                freed(Side::Front, (link, number)).map(Answer::Cancel)
            }
            _ => None,
        };
        found.map_or(answer, Ok)
    }

    fn keep_places(&mut self) {
        let entries = &self.book.entries;
        for place in &mut self.places {
            *place = place.filter(|taken| has(entries, taken));
        }
        for entry in entries {
            if !has(self.places.iter().flatten(), entry) {
                let free = self.places.iter_mut().find(|place| place.is_none());
                *free.expect("a free place") = Some(*entry);
            }
        }
    }
}

fn end(entry: &Entry, side: Side) -> End {
    let front = (entry.link, entry.front_number);
    side.of(front, (entry.publisher, entry.publisher_number))
}

fn of_peer<'a, I>(entries: I, side: Side, number: u8) -> Vec<Entry>
where
    I: IntoIterator<Item = &'a Entry>,
{
    let of_peer = |entry: &&Entry| end(entry, side).0 == number;
    entries.into_iter().filter(of_peer).copied().collect()
}

/// No two requests in flight have the same publisher end.
fn has<'a>(entries: impl IntoIterator<Item = &'a Entry>, wanted: &Entry) -> bool {
    let publisher = end(wanted, Side::Publisher);
    let mut ends = entries.into_iter().map(|entry| end(entry, Side::Publisher));
    ends.any(|other| other == publisher)
}
