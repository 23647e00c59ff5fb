//! Messages that the reader refuses. The link stays, but nobody may wait for
//! ever: where the refusal came after the query number, the request that it
//! names ends with an error whose code is the refusal's number.

use crate::core::Core;
use crate::event::Peer;
use relay::packet_type::{INVOKE, OLD_ERROR, RESULT};
use relay::{FrontNumber, PublisherNumber, Refusal};

/// The query number at the front of a refused invoke, result or old error.
/// None if it is cut off, or if it is 0, under which nothing can be written.
fn number_of(body: &[u8]) -> Option<i64> {
    let number = i64::from_le_bytes(*body.first_chunk()?);
    (number != 0).then_some(number)
}

impl Core {
    pub(crate) fn unreadable(&mut self, peer: Peer, kind: u32, body: &[u8], refusal: Refusal) {
        self.counts.unread += 1;
        match (peer, kind) {
            (Peer::Front(link), INVOKE) => self.unreadable_invoke(link, number_of(body), refusal),
            (Peer::Publisher(publisher), RESULT | OLD_ERROR) => {
                if let Some(number) = number_of(body) {
                    self.unreadable_answer(publisher, PublisherNumber(number), refusal);
                }
            }
            // Nobody waits for what a cancel, a fin or no message at all says.
            _ => {}
        }
    }

    /// It is a request all the same: after a fin, or under a number in flight,
    /// it ends the link.
    fn unreadable_invoke(&mut self, link: u8, number: Option<i64>, refusal: Refusal) {
        if self.has_finished(link) {
            return self.close(Peer::Front(link));
        }
        let Some(front) = number.map(FrontNumber) else {
            return;
        };
        match self.table.cancel(link, front) {
            Ok((publisher, number)) => {
                self.counts.closed += 1;
                self.cancel_at(publisher, number);
                self.repeated(link);
            }
            Err(_) => self.refuse(link, front, refusal),
        }
    }

    /// Its request is over, as with an answer that can be read.
    fn unreadable_answer(&mut self, publisher: u8, number: PublisherNumber, refusal: Refusal) {
        let Ok((link, front)) = self.table.reply(publisher, number) else {
            self.counts.late += 1;
            return;
        };
        self.counts.unreadable += 1;
        self.refuse(link, front, refusal);
        self.ended(publisher);
    }
}
