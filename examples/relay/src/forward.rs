//! The way of a request: to its publisher, and its answer back. Each step asks
//! the table, which alone knows whose request a number is.

use crate::core::Core;
use crate::event::Peer;
use relay::{
    Answer, FrontNumber, Invoke, Message, OtherEnds, PublisherNumber, Refusal, ToSend, ALL_ENDS,
};

/// The publisher of a request: its actor modulo 8, or 0 without an actor.
/// (Document 01 leaves routing to the caller; this is the example's rule.)
fn route(actor: Option<i64>) -> u8 {
    actor.unwrap_or(0).rem_euclid(8) as u8
}

impl Core {
    /// A request of a front end. After its fin there may be none.
    pub(crate) fn invoke(&mut self, link: u8, invoke: Invoke) {
        if self.has_finished(link) {
            return self.close(Peer::Front(link));
        }
        let publisher = route(invoke.actor);
        let front = FrontNumber(invoke.number);
        let asked = self
            .table
            .ask_by(link, front, publisher, self.now.ms, self.timeout);
        match asked {
            Ok(number) => {
                self.counts.asked += 1;
                self.pass_on(link, publisher, number, invoke);
            }
            Err(Refusal::IN_FLIGHT_ALREADY) => self.repeated(link),
            Err(refusal) => self.refuse(link, front, refusal),
        }
    }

    /// A second request came under a number in flight. An error under that
    /// number would be taken for the first one's answer, and an answer might be
    /// taken for either's, so the link ends and nothing goes out under it.
    pub(crate) fn repeated(&mut self, link: u8) {
        self.counts.repeated += 1;
        self.close(Peer::Front(link));
    }

    pub(crate) fn has_finished(&mut self, link: u8) -> bool {
        let front = self.connection(Peer::Front(link));
        front.is_some_and(|front| front.fin)
    }

    /// An accepted request goes out under the publisher's number. If there is
    /// no way to the publisher, it ends here.
    fn pass_on(&mut self, link: u8, publisher: u8, number: PublisherNumber, invoke: Invoke) {
        let front = FrontNumber(invoke.number);
        let request = Message::Invoke(Invoke {
            number: number.0,
            ..invoke
        });
        if let Err(refusal) = self.request(publisher, request) {
            // It was accepted just now, so it is there to be taken back.
            let _ = self.table.cancel(link, front);
            self.counts.unsent += 1;
            self.refuse(link, front, refusal);
        }
    }

    fn request(&mut self, publisher: u8, request: Message) -> Result<(), Refusal> {
        let peer = Peer::Publisher(publisher);
        match self.connection(peer) {
            Some(connection) if connection.takes_requests() => {}
            _ => return Err(Refusal::LINK_CLOSED),
        }
        self.send_message(peer, request)?;
        if let Some(connection) = self.connection(peer) {
            connection.in_flight += 1;
        }
        Ok(())
    }

    /// A publisher's answer goes back under the front number, if its request
    /// is in flight, and else nowhere.
    pub(crate) fn answer(&mut self, publisher: u8, number: i64, answer: Answer) {
        let Ok((link, front)) = self.table.reply(publisher, PublisherNumber(number)) else {
            self.counts.late += 1;
            return;
        };
        self.counts.answered += 1;
        if let Err(refusal) = self.result(link, front, answer) {
            self.refuse(link, front, refusal);
        }
        self.ended(publisher);
    }

    /// A front end's cancel goes on under the publisher's number.
    pub(crate) fn cancel(&mut self, link: u8, number: i64) {
        match self.table.cancel(link, FrontNumber(number)) {
            Ok((publisher, number)) => {
                self.counts.cancelled += 1;
                self.cancel_at(publisher, number);
            }
            Err(_) => self.counts.idle_cancels += 1,
        }
    }

    /// All requests of a peer that is gone: those of a front end are cancelled,
    /// those at a publisher end with an error.
    pub(crate) fn end_requests(&mut self, peer: Peer) {
        let mut ends = [0; ALL_ENDS];
        match self.table.gone(peer, &mut ends) {
            Ok(OtherEnds::Publishers(ends)) => {
                for (publisher, number) in ends {
                    self.counts.closed += 1;
                    self.cancel_at(publisher, number);
                }
            }
            Ok(OtherEnds::Fronts(ends)) => {
                for (link, front) in ends {
                    self.counts.lost += 1;
                    self.refuse(link, front, Refusal::LINK_CLOSED);
                }
            }
            // No peer out of range has had a connection, and the slice is long
            // enough for all.
            Err(_) => {}
        }
    }

    /// From a publisher: no new request goes to it, as our fin tells it, and
    /// its connection ends with its last answer. From a front end: it sends
    /// no more requests, and closes when it has its answers.
    pub(crate) fn fin(&mut self, peer: Peer) {
        if let Some(connection) = self.connection(peer) {
            connection.fin = true;
        }
        if let Peer::Publisher(publisher) = peer {
            self.send_or_close(peer, ToSend::Message(Message::ClientFin));
            self.close_if_done(publisher);
        }
    }

    pub(crate) fn cancel_at(&mut self, publisher: u8, number: PublisherNumber) {
        let cancel = Message::Cancel { number: number.0 };
        self.send_or_close(Peer::Publisher(publisher), ToSend::Message(cancel));
        self.ended(publisher);
    }

    /// A request at a publisher has ended.
    pub(crate) fn ended(&mut self, publisher: u8) {
        if let Some(connection) = self.connection(Peer::Publisher(publisher)) {
            connection.in_flight = connection.in_flight.saturating_sub(1);
        }
        self.close_if_done(publisher);
    }

    fn close_if_done(&mut self, publisher: u8) {
        let peer = Peer::Publisher(publisher);
        if self.connection(peer).is_some_and(|c| c.is_done()) {
            self.close(peer);
        }
    }

    fn result(&mut self, link: u8, front: FrontNumber, answer: Answer) -> Result<(), Refusal> {
        let number = front.0;
        let result = Message::Result { number, answer };
        self.send_message(Peer::Front(link), result)
    }

    /// An error of our own; its code is the refusal's number.
    pub(crate) fn refuse(&mut self, link: u8, front: FrontNumber, refusal: Refusal) {
        self.error(link, front, refusal.number(), &refusal.to_string());
    }

    pub(crate) fn error(&mut self, link: u8, front: FrontNumber, code: u8, text: &str) {
        *self.counts.refused.entry(code).or_default() += 1;
        let error = Answer::Error {
            code: code.into(),
            text: text.as_bytes(),
        };
        if self.result(link, front, error).is_err() {
            self.close(Peer::Front(link));
        }
    }
}
