//! What the relay has done so far, in numbers.

use relay::Refusal;
use std::collections::BTreeMap;
use std::fmt;

#[derive(Clone, Default)]
pub struct Counts {
    /// Requests that the table accepted. Each of them ends in exactly one of
    /// the seven ways below, or is still in flight.
    pub asked: u64,
    pub answered: u64,
    pub cancelled: u64,
    /// Its front link closed.
    pub closed: u64,
    /// Its publisher was lost.
    pub lost: u64,
    /// It could not be sent to its publisher.
    pub unsent: u64,
    /// Its answer could not be read.
    pub unreadable: u64,
    /// Its deadline came.
    pub ran_out: u64,
    /// Answers to nothing in flight, which go nowhere (34).
    pub late: u64,
    /// Cancels of nothing in flight (34).
    pub idle_cancels: u64,
    /// Messages that could not be read, of either side.
    pub unread: u64,
    /// Requests under a number in flight on their link, which end it (31).
    pub repeated: u64,
    /// Error results of our own, by code: refused asks, unsent, lost, ran out, and
    /// where a request or its answer could not be read.
    pub refused: BTreeMap<u8, u64>,
    pub pings: u64,
    pub pongs: u64,
    /// Connections that we ended, for whatever reason.
    pub dropped: u64,
    /// Those of them that broke a rule, by the refusal's number.
    pub faults: BTreeMap<u8, u64>,
    /// Those of them whose ciphered Handshake could not be read.
    pub other_keys: u64,
    /// Those of them whose point the card refused.
    pub bad_points: u64,
    /// Those of them that did not open in time.
    pub unopened: u64,
    /// Those of them whose peer did not read what waited for it.
    pub slow: u64,
    /// Connections that were not taken: no link was free, or no set-up.
    pub turned_away: u64,
}

impl Counts {
    pub fn in_flight(&self) -> u64 {
        let ended = [
            self.answered,
            self.cancelled,
            self.closed,
            self.lost,
            self.unsent,
            self.unreadable,
            self.ran_out,
        ];
        self.asked - ended.iter().sum::<u64>()
    }

    /// Connections that ended by this refusal.
    pub fn faults_of(&self, refusal: Refusal) -> u64 {
        self.faults.get(&refusal.number()).copied().unwrap_or(0)
    }

    /// Those whose Nonce had a version below the lowest (24).
    pub fn too_old(&self) -> u64 {
        self.faults_of(Refusal::VERSION_TOO_OLD)
    }

    /// Those whose Nonce named an encryption that the link does not take, or
    /// another key (9).
    pub fn not_agreed(&self) -> u64 {
        self.faults_of(Refusal::ENCRYPTION)
    }
}

/// Words and numbers in turn, on one line; `refused_32`, `fault_6` and so on at the
/// end.
impl fmt::Display for Counts {
    fn fmt(&self, f: &mut fmt::Formatter) -> fmt::Result {
        let named = [
            ("in_flight", self.in_flight()),
            ("asked", self.asked),
            ("answered", self.answered),
            ("cancelled", self.cancelled),
            ("closed", self.closed),
            ("lost", self.lost),
            ("unsent", self.unsent),
            ("unreadable", self.unreadable),
            ("ran_out", self.ran_out),
            ("late", self.late),
            ("idle_cancels", self.idle_cancels),
            ("unread", self.unread),
            ("repeated", self.repeated),
            ("pings", self.pings),
            ("pongs", self.pongs),
            ("dropped", self.dropped),
            ("too_old", self.too_old()),
            ("not_agreed", self.not_agreed()),
            ("other_keys", self.other_keys),
            ("bad_points", self.bad_points),
            ("unopened", self.unopened),
            ("slow", self.slow),
            ("turned_away", self.turned_away),
        ];
        write!(f, "counts")?;
        for (name, count) in named {
            write!(f, " {name} {count}")?;
        }
        for (code, count) in &self.refused {
            write!(f, " refused_{code} {count}")?;
        }
        for (number, count) in &self.faults {
            write!(f, " fault_{number} {count}")?;
        }
        Ok(())
    }
}
