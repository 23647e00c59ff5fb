//! The table of requests in flight (document 01: the ticket table).

mod ends;

pub use ends::{EndList, OtherEnds};

use crate::{raw, FrontNumber, PublisherNumber, Refusal};
use std::fmt;
use std::num::NonZeroU32;

/// Front links are 0 to 31, publishers 0 to 7.
pub const LINKS: u8 = 32;
pub const PUBLISHERS: u8 = 8;
/// The length of a slice that `gone` and `run_out` never find too short.
pub const ALL_ENDS: usize = 2 * 64;

/// Who is at the other end of a connection.
#[derive(Clone, Copy, Debug, PartialEq, Eq, Hash)]
pub enum Peer {
    /// A front end, by its link, 0 to 31.
    Front(u8),
    /// A publisher, 0 to 7.
    Publisher(u8),
}

impl fmt::Display for Peer {
    fn fmt(&self, f: &mut fmt::Formatter) -> fmt::Result {
        match self {
            Peer::Front(link) => write!(f, "front end {link}"),
            Peer::Publisher(publisher) => write!(f, "publisher {publisher}"),
        }
    }
}

/// Which front link asked which publisher, under which numbers.
///
/// A call works where the table stands and copies none of it; a refused one
/// leaves it as it was.
///
/// Times are milliseconds of any one clock of the caller's, below 2^62. The table
/// keeps the latest time that it has seen, which counts if the clock goes back;
/// a call's own time is among those seen, but not where the call is refused. A
/// request past its deadline stays in flight until [`Table::run_out`] is called.
#[derive(Clone, Debug)]
pub struct Table(raw::Table);

impl Table {
    /// An empty table; `first`, at least 1, is the first number of every
    /// publisher.
    pub fn new(first: PublisherNumber) -> Result<Table, Refusal> {
        let mut table = Table(raw::Table {
            masks: [0; 9],
            numbers: [0; 136],
            places: [0; 128],
            order: [0; 64],
            times: [0; 65],
        });
        let refusal = raw::relay_fresh(&mut table.0, first);
        Refusal::unless(refusal, table)
    }

    /// Accepts a request without a deadline; hands back the number under which
    /// the publisher is to get it.
    pub fn ask(
        &mut self,
        link: u8,
        number: FrontNumber,
        publisher: u8,
    ) -> Result<PublisherNumber, Refusal> {
        let asked = raw::relay_ask(&mut self.0, link, number, publisher);
        Refusal::unless(asked.refusal, asked.number)
    }

    /// The same with the present time, and a timeout in milliseconds from which
    /// the request has its deadline: the latest time seen plus the timeout.
    pub fn ask_by(
        &mut self,
        link: u8,
        number: FrontNumber,
        publisher: u8,
        time: u64,
        timeout: Option<NonZeroU32>,
    ) -> Result<PublisherNumber, Refusal> {
        let timeout = timeout.map_or(0, NonZeroU32::get);
        let asked = raw::relay_ask_by(&mut self.0, link, number, publisher, time, timeout);
        Refusal::unless(asked.refusal, asked.number)
    }

    /// Frees the request that a publisher replied to; hands back its link and
    /// front number.
    pub fn reply(
        &mut self,
        publisher: u8,
        number: PublisherNumber,
    ) -> Result<(u8, FrontNumber), Refusal> {
        let replied = raw::relay_reply(&mut self.0, publisher, number);
        Refusal::unless(replied.refusal, (replied.link, replied.number))
    }

    /// Frees the request that a front end cancelled; hands back its publisher
    /// and publisher number.
    pub fn cancel(
        &mut self,
        link: u8,
        number: FrontNumber,
    ) -> Result<(u8, PublisherNumber), Refusal> {
        let cancelled = raw::relay_cancel(&mut self.0, link, number);
        Refusal::unless(cancelled.refusal, (cancelled.publisher, cancelled.number))
    }

    /// A front link closed or a publisher is lost: frees its requests; hands
    /// back the other end of each, oldest accepted first, which it wrote to the
    /// front of `out`. What lies past them stays. A lost publisher's numbering
    /// goes on.
    ///
    /// ```
    /// use relay::{FrontNumber, OtherEnds, Peer, PublisherNumber, Table, ALL_ENDS};
    ///
    /// let mut table = Table::new(PublisherNumber(1))?;
    /// table.ask(3, FrontNumber(77), 0)?;
    /// let mut ends = [0; ALL_ENDS];
    /// match table.gone(Peer::Front(3), &mut ends)? {
    ///     // To be cancelled.
    ///     OtherEnds::Publishers(ends) => assert!(ends.eq([(0, PublisherNumber(1))])),
    ///     // To be told that no answer comes.
    ///     OtherEnds::Fronts(_) => unreachable!("those of a publisher's requests"),
    /// }
    /// # Ok::<(), relay::Refusal>(())
    /// ```
    pub fn gone<'a>(&mut self, peer: Peer, out: &'a mut [i64]) -> Result<OtherEnds<'a>, Refusal> {
        let (publisher, number) = match peer {
            Peer::Front(link) => (false, link),
            Peer::Publisher(publisher) => (true, publisher),
        };
        let dropped = raw::relay_gone(&mut self.0, publisher, number, out);
        let ends = OtherEnds::of(peer, &out[..2 * dropped.count]);
        Refusal::unless(dropped.refusal, ends)
    }

    /// Frees the requests whose deadline is at or before the present time, or
    /// the latest time seen if that is later; hands back link and front number of
    /// each, oldest accepted first, which it wrote to the front of `out`. What
    /// lies past them stays. Their publisher numbers are not known any more, and
    /// a late reply is refused.
    ///
    /// With an empty slice it tells whether a deadline has come, and frees nothing.
    ///
    /// ```
    /// use relay::{FrontNumber, PublisherNumber, Refusal, Table, ALL_ENDS};
    /// use std::num::NonZeroU32;
    ///
    /// let mut table = Table::new(PublisherNumber(1))?;
    /// table.ask_by(3, FrontNumber(77), 0, 1_000, NonZeroU32::new(250))?;
    /// assert_eq!(table.run_out(1_249, &mut [])?.len(), 0);
    /// assert_eq!(table.run_out(1_250, &mut []).err(), Some(Refusal::BUFFER_TOO_SMALL));
    /// let mut ends = [0; ALL_ENDS];
    /// // To be told that no answer comes.
    /// assert!(table.run_out(1_250, &mut ends)?.eq([(3, FrontNumber(77))]));
    /// # Ok::<(), relay::Refusal>(())
    /// ```
    pub fn run_out<'a>(
        &mut self,
        time: u64,
        out: &'a mut [i64],
    ) -> Result<EndList<'a, FrontNumber>, Refusal> {
        let dropped = raw::relay_run_out(&mut self.0, time, out);
        let ends = EndList::new(&out[..2 * dropped.count], FrontNumber);
        Refusal::unless(dropped.refusal, ends)
    }

    /// The state as it crosses the C interface.
    #[cfg(feature = "raw")]
    pub fn raw(&mut self) -> &mut raw::Table {
        &mut self.0
    }
}
