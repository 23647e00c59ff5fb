//! Requests that their publisher does not answer in time.

use crate::core::Core;
use relay::{FrontNumber, ALL_ENDS};

/// The error that ends such a request. Its code is no refusal's, so that a front
/// end can tell it from a publisher that was lost (20).
const CODE: u8 = 100;
const TEXT: &str = "the publisher has not answered in time (100)";

impl Core {
    /// Each request whose deadline has come ends with an error, and is cancelled
    /// at its publisher, whose late answer then goes nowhere.
    ///
    /// The table's `run_out` hands back link and front number alone, and forgets
    /// the publisher's number. So a copy tells who is due, and each request is taken
    /// out by a cancel, which tells the publisher's number too. What one of them
    /// leads to may end others: a connection that cannot be written ends, with all
    /// its requests, and for these the cancel finds nothing.
    pub(crate) fn run_out(&mut self) {
        let now = self.now.ms;
        // An empty slice is too short for any request, so that the table is copied
        // only if one is due.
        if self.table.run_out(now, &mut []).is_ok() {
            return;
        }
        for (link, front) in self.due() {
            if let Ok((publisher, number)) = self.table.cancel(link, front) {
                self.counts.ran_out += 1;
                self.cancel_at(publisher, number);
                self.error(link, front, CODE, TEXT);
            }
        }
        // None is due any more, and the time is seen.
        let _ = self.table.run_out(now, &mut []);
    }

    /// Link and front number of each request that is due, oldest accepted first.
    fn due(&self) -> Vec<(u8, FrontNumber)> {
        let mut ends = [0; ALL_ENDS];
        let due = self.table.clone().run_out(self.now.ms, &mut ends);
        due.map(Iterator::collect).unwrap_or_default()
    }
}
