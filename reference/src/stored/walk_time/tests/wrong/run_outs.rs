//! What goes wrong with a run-out.

use super::*;
use crate::clock::LARGEST_TIME;

impl Wrong {
    pub fn run_out(&mut self, given: u64, ends: &mut [i64]) -> Result<usize, Refusal> {
        if !self.run_out_takes(given) {
            if self.mistake == Mistake::RunOutTooLateSeen {
                self.see(given);
            }
            return Err(Refusal::OutOfRange);
        }
        let before = self.book.latest_time_seen;
        let time = self.read_time(given);
        self.see(time);
        let now = match self.mistake {
            Mistake::RunOutByOwnTime => time,
            Mistake::RunOutByTimeBefore => before,
            Mistake::NoneIfClockWentBack if time < before => 0,
            _ => self.book.latest_time_seen,
        };
        let listed = self.listed(now);
        if listed.is_empty() && self.mistake == Mistake::NoneIsRefused {
            return Err(Refusal::NotInFlight);
        }
        let is_seen = match self.mistake {
            Mistake::RunOutNotSeen => false,
            Mistake::EmptyRunOutNotSeen => !listed.is_empty(),
            _ => true,
        };
        if !is_seen {
            self.book.latest_time_seen = before;
        }
        for (entry, pair) in listed.iter().zip(ends.chunks_exact_mut(2)) {
            pair.copy_from_slice(&self.written(entry));
        }
        let count = self.count(&listed);
        self.strike(listed);
        Ok(count.min(64))
    }

    fn run_out_takes(&self, time: u64) -> bool {
        match self.mistake {
            Mistake::RunOutTakesFirstBeyond => time <= LARGEST_TIME + 1,
            Mistake::RunOutRefusesLargest => time < LARGEST_TIME,
            Mistake::RunOutJudgesSigned => (time as i64) <= LARGEST_TIME as i64,
            Mistake::TimeZeroRefused => (1..=LARGEST_TIME).contains(&time),
            Mistake::FirstRunOutAt0Refused if time == 0 => {
                self.book.latest_time_seen > 0 || self.book.last != [None; 8]
            }
            Mistake::TimeNotLaterRefused if time <= self.book.latest_time_seen => false,
            _ => time <= LARGEST_TIME,
        }
    }

    fn listed(&self, now: u64) -> Vec<Entry> {
        let runs_out = |entry: &&Entry| match self.mistake {
            Mistake::StrictlyBefore => due(entry, now) && entry.deadline != Some(now),
            Mistake::NoDeadlineToo => due(entry, now) || entry.deadline.is_none(),
            _ => due(entry, now),
        };
        let entries = || self.book.entries.iter();
        let mut listed: Vec<Entry> = entries().filter(runs_out).copied().collect();
        let oldest = listed.first().copied();
        let same = |entry: &Entry, side| {
            oldest.is_some_and(|oldest| end(&oldest, side).0 == end(entry, side).0)
        };
        match self.mistake {
            Mistake::OneOnly => listed.truncate(1),
            Mistake::OnePublisherOnly => listed.retain(|entry| same(entry, Side::Publisher)),
            Mistake::OneLinkOnly => listed.retain(|entry| same(entry, Side::Front)),
            Mistake::UpToFirstNotDue => listed = entries().take_while(runs_out).copied().collect(),
            Mistake::ByPlace => {
                let places = self.places.iter().flatten();
                listed = places.filter(runs_out).copied().collect();
            }
            Mistake::StillListed => listed.extend(&self.freed),
            _ => self.sort(&mut listed),
        }
        listed
    }

    fn sort(&self, listed: &mut [Entry]) {
        match self.mistake {
            Mistake::NewestFirst => listed.reverse(),
            Mistake::ByDeadline => listed.sort_by_key(|entry| entry.deadline),
            Mistake::ByLink => listed.sort_by_key(|entry| entry.link),
            Mistake::ByFrontNumber => listed.sort_by_key(|entry| entry.front_number),
            Mistake::ByPublisher => listed.sort_by_key(|entry| entry.publisher),
            Mistake::ByPublisherNumber => listed.sort_by_key(|entry| entry.publisher_number),
            _ => {}
        }
    }

    fn written(&self, entry: &Entry) -> [i64; 2] {
        let ((link, number), publisher) = (end(entry, Side::Front), end(entry, Side::Publisher));
        let (peer, number) = match self.mistake {
            Mistake::PublisherEnd => publisher,
            Mistake::PublisherAndFrontNumber => (publisher.0, number),
            Mistake::FrontNumberOf32Bits => (link, i64::from(number as i32)),
            _ => (link, number),
        };
        [peer.into(), number]
    }

    fn count(&self, listed: &[Entry]) -> usize {
        match self.mistake {
            Mistake::CountOneMore => listed.len() + usize::from(!listed.is_empty()),
            Mistake::CountOneLess => listed.len().saturating_sub(1),
            Mistake::CountOfAll => self.book.entries.len(),
            _ => listed.len(),
        }
    }

    fn strike(&mut self, mut listed: Vec<Entry>) {
        if self.mistake == Mistake::NewestStays && listed.len() > 1 {
            listed.pop();
        }
        for entry in listed.iter().rev() {
            let last = &mut self.book.last[usize::from(entry.publisher)];
            match self.mistake {
                Mistake::NumberingStartsAnew => *last = None,
                Mistake::NumbersGivenBack if *last == Some(entry.publisher_number) => {
                    *last = Some(entry.publisher_number - 1).filter(|&number| number > 0);
                }
                _ => {}
            }
        }
        let entries = &mut self.book.entries;
        let oldest = entries.iter().position(|entry| has(&listed, entry));
        entries.retain(|entry| !has(&listed, entry));
        if let (Mistake::RestOutOfOrder, Some(hole)) = (self.mistake, oldest) {
            // The newest takes the place of the oldest that was freed.
            if let Some(newest) = entries.pop() {
                entries.insert(hole.min(entries.len()), newest);
            }
        }
        if !listed.is_empty() {
            self.freed = listed;
        }
    }
}
