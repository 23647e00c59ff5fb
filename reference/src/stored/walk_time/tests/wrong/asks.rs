//! What goes wrong with an ask.

use super::*;
use crate::clock::LARGEST_TIME;

impl Wrong {
    pub fn old_ask(&mut self, front: End, publisher: u8) -> Result<Answer, Refusal> {
        let latest = self.book.latest_time_seen;
        let answer = self.ask(front, publisher, latest)?;
        let deadline = match self.mistake {
            Mistake::OldAskAtOnce => Some(0),
            Mistake::OldAskAtLatestTime => Some(latest),
            Mistake::OldAskLeftOver => self.left_over(),
            _ => None,
        };
        self.set_deadline(deadline);
        Ok(answer)
    }

    pub fn ask_by(
        &mut self,
        front: End,
        publisher: u8,
        time: u64,
        timeout: u32,
    ) -> Result<Answer, Refusal> {
        if !self.ask_takes(time) {
            let row = self.clone_ask(front, publisher).err();
            if self.mistake == Mistake::AskTooLateSeen && row.is_none() {
                self.see(time);
            }
            return match row {
                Some(row) if self.mistake == Mistake::TimeJudgedAfter(row) => Err(row),
                _ => Err(Refusal::OutOfRange),
            };
        }
        let time = self.read_time(time);
        let latest = self.book.latest_time_seen.max(time);
        match self.ask(front, publisher, latest) {
            Ok(answer) => {
                let now = self.time_of_ask(time, timeout);
                let deadline = self.deadline(now, timeout);
                self.set_deadline(deadline);
                Ok(answer)
            }
            Err(refusal) => {
                if self.is_seen_though_refused(refusal, front, publisher) {
                    self.see(time);
                }
                Err(refusal)
            }
        }
    }

    fn ask_takes(&self, time: u64) -> bool {
        match self.mistake {
            Mistake::AskTakesFirstBeyond => time <= LARGEST_TIME + 1,
            Mistake::AskRefusesLargest => time < LARGEST_TIME,
            Mistake::AskJudgesSigned => (time as i64) <= LARGEST_TIME as i64,
            Mistake::TimeZeroRefused => (1..=LARGEST_TIME).contains(&time),
            _ => time <= LARGEST_TIME,
        }
    }

    pub fn read_time(&self, time: u64) -> u64 {
        match self.mistake {
            Mistake::TimeOf31Bits => time % (1 << 31),
            Mistake::TimeOf32Bits => time % (1 << 32),
            _ => time,
        }
    }

    pub fn see(&mut self, time: u64) {
        let latest = &mut self.book.latest_time_seen;
        *latest = match self.mistake {
            Mistake::LatestIsLastGiven => time,
            _ => time.max(*latest),
        };
    }

    fn is_seen_though_refused(&self, refusal: Refusal, (link, _): End, publisher: u8) -> bool {
        match self.mistake {
            Mistake::RefusedAskSeen(row) => row == refusal,
            Mistake::AskOfNoLinkSeen => link > 31,
            Mistake::AskOfNoPublisherSeen => link < 32 && publisher > 7,
            _ => false,
        }
    }

    /// Sees the time of an accepted ask; hands back what its deadline is
    /// counted from.
    fn time_of_ask(&mut self, time: u64, timeout: u32) -> u64 {
        let before = self.book.latest_time_seen;
        self.see(time);
        let now = self.book.latest_time_seen;
        match self.mistake {
            Mistake::DeadlineByOwnTime => return time,
            Mistake::DeadlineByTimeBefore => return before,
            Mistake::AskNotSeen => self.book.latest_time_seen = before,
            Mistake::AskWithoutTimeoutNotSeen if timeout == 0 => {
                self.book.latest_time_seen = before;
            }
            _ => {}
        }
        now
    }

    fn deadline(&self, now: u64, timeout: u32) -> Option<u64> {
        if timeout == 0 {
            return match self.mistake {
                Mistake::TimeoutZeroAtOnce => Some(0),
                Mistake::TimeoutZeroAtItsTime => Some(now),
                Mistake::NoTimeoutLeftOver => self.left_over(),
                _ => None,
            };
        }
        let after = |timeout| now.saturating_add(timeout);
        let deadline = after(timeout.into());
        Some(match self.mistake {
            Mistake::TimeoutOf16Bits => after((timeout % (1 << 16)).into()),
            Mistake::TimeoutOf31Bits => after((timeout % (1 << 31)).into()),
            Mistake::TimeoutSigned => now.saturating_add_signed((timeout as i32).into()),
            Mistake::DeadlineOf32Bits => deadline % (1 << 32),
            Mistake::DeadlineOf62Bits => deadline % (LARGEST_TIME + 1),
            Mistake::DeadlineUpToLargestTime => deadline.min(LARGEST_TIME),
            Mistake::EarlierDeadlineLeftOver => self.left_over().unwrap_or(deadline),
            _ => deadline,
        })
    }

    /// What the place of the newest, which is not yet kept, held last.
    fn left_over(&self) -> Option<u64> {
        let place = self.lowest_free_place();
        self.left_over.get(place).copied().flatten()
    }

    fn set_deadline(&mut self, deadline: Option<u64>) {
        let newest = self.book.entries.last_mut();
        newest.expect("an accepted ask").deadline = deadline;
    }

    fn clone_ask(&self, front: End, publisher: u8) -> Result<Answer, Refusal> {
        let event = Event::Ask(front.0, front.1, publisher);
        self.book.clone().call(event, &mut [])
    }

    /// An ask without its time; what was freed or is overdue may count wrongly.
    fn ask(&mut self, front: End, publisher: u8, now: u64) -> Result<Answer, Refusal> {
        let event = Event::Ask(front.0, front.1, publisher);
        let answer = self.clone_ask(front, publisher);
        self.freed_still_count(front, publisher, answer)?;
        if self.mistake == Mistake::OverdueFreedByAsk && answer.is_ok() {
            self.book.entries.retain(|entry| !due(entry, now));
        }
        let own = |entry: &Entry| entry.publisher == publisher;
        let is_hidden = |entry: &Entry| match (self.mistake, answer) {
            (Mistake::OverdueAskedAgain, Err(Refusal::InFlightAlready)) => due(entry, now),
            (Mistake::OverdueNotInLoad, Err(Refusal::LoadFull)) => own(entry) && due(entry, now),
            (Mistake::OverdueNotInRoom, Err(Refusal::SharedRoomGone)) => due(entry, now),
            _ => false,
        };
        let mut judged = self.book.clone();
        judged.entries.retain(|entry| !is_hidden(entry));
        let answer = judged.call(event, &mut [])?;
        self.book.last = judged.last;
        self.book.entries.extend(judged.entries.last());
        Ok(answer)
    }

    fn freed_still_count(
        &self,
        front: End,
        publisher: u8,
        answer: Result<Answer, Refusal>,
    ) -> Result<(), Refusal> {
        let freed = |publisher| {
            let own = |entry: &&Entry| entry.publisher == publisher;
            self.freed.iter().filter(own).count()
        };
        let load = |publisher| self.book.load(publisher) + freed(publisher);
        let room = || (0..8).map(|p| load(p).max(4)).sum::<usize>();
        let mut fronts = self.freed.iter().map(|entry| end(entry, Side::Front));
        let asked = fronts.any(|other| other == front);
        match self.mistake {
            _ if answer.is_err() => Ok(()),
            Mistake::StillInFlight if asked => Err(Refusal::InFlightAlready),
            Mistake::StillInLoad if load(publisher) >= 16 => Err(Refusal::LoadFull),
            Mistake::StillInRoom if self.book.load(publisher) >= 4 && room() >= 64 => {
                Err(Refusal::SharedRoomGone)
            }
            _ => Ok(()),
        }
    }
}
