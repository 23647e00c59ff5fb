//! The relay itself, without sockets. One event is handled after the other,
//! and what is to be done comes back as actions. Here: which packet is for whom.
//! `opening` and `keep_alive` have what is a connection's own, `forward` the
//! way of requests and answers, `unreadable` what becomes of those that cannot
//! be read, `run_out` of those that are not answered in time, `output` what is
//! handed over at the end of an event.

use crate::connection::{side_towards, Connection};
use crate::counts::Counts;
use crate::event::{Action, Event, Now, Peer};
use crate::settings::LinkSettings;
use relay::packet_type::{HANDSHAKE, NONCE, PING, PONG};
use relay::{
    read_message, Fault, Message, Moment, PublisherNumber, Refusal, Table, ToSend, LINKS,
    PUBLISHERS,
};
use std::num::NonZeroU32;

pub struct Core {
    pub(crate) table: Table,
    fronts: [Option<Connection>; LINKS as usize],
    publishers: [Option<Connection>; PUBLISHERS as usize],
    /// Of the links to the front ends, and of those to the publishers.
    front_settings: LinkSettings,
    publisher_settings: [LinkSettings; PUBLISHERS as usize],
    pub(crate) actions: Vec<Action>,
    /// Whom the event has sent packets that are not handed over yet.
    pub(crate) unwritten: Vec<Peer>,
    pub(crate) counts: Counts,
    pub(crate) now: Now,
    /// What a request has from its acceptance on, in milliseconds, if it ever runs
    /// out.
    pub(crate) timeout: Option<NonZeroU32>,
    /// The ID of our next Ping.
    pub(crate) next_ping: u64,
}

impl Core {
    /// With the settings of the links to all front ends, and of those to the
    /// publishers, and the timeout of each request, in milliseconds.
    pub fn new(
        front: LinkSettings,
        publishers: [LinkSettings; PUBLISHERS as usize],
        timeout: Option<NonZeroU32>,
    ) -> Core {
        Core {
            // Every number from 1 on is accepted here.
            table: Table::new(PublisherNumber(1)).expect("1 is a first number"),
            fronts: std::array::from_fn(|_| None),
            publishers: std::array::from_fn(|_| None),
            front_settings: front,
            publisher_settings: publishers,
            actions: Vec::new(),
            unwritten: Vec::new(),
            counts: Counts::default(),
            now: Now::default(),
            timeout,
            next_ping: 1,
        }
    }

    /// Whether a connection to the peer needs a card.
    pub fn may_cipher(&self, peer: Peer) -> bool {
        let settings = self.settings(peer);
        settings.is_some_and(|settings| settings.key.is_some())
    }

    pub fn counts(&self) -> &Counts {
        &self.counts
    }

    pub fn handle(&mut self, event: Event, now: Now) -> Vec<Action> {
        self.now = now;
        match event {
            Event::Connected(peer, opening) => self.connected(peer, opening),
            Event::Bytes(peer, bytes) => self.bytes(peer, bytes),
            Event::Closed(peer) => self.gone(peer),
            Event::OpeningOver(peer) => self.opening_over(peer),
            Event::Slow(peer) => self.slow(peer),
            Event::TurnedAway => self.counts.turned_away += 1,
            Event::Tick => self.tick(),
            Event::RunOut => self.run_out(),
        }
        self.hand_over_all();
        std::mem::take(&mut self.actions)
    }

    fn moment(&self) -> Moment {
        Moment {
            time: self.now.seconds,
        }
    }

    pub(crate) fn slot(&mut self, peer: Peer) -> Option<&mut Option<Connection>> {
        match peer {
            Peer::Front(link) => self.fronts.get_mut(usize::from(link)),
            Peer::Publisher(publisher) => self.publishers.get_mut(usize::from(publisher)),
        }
    }

    /// Of the link to a peer; none if there is no such publisher.
    pub(crate) fn settings(&self, peer: Peer) -> Option<&LinkSettings> {
        match peer {
            Peer::Front(_) => Some(&self.front_settings),
            Peer::Publisher(publisher) => self.publisher_settings.get(usize::from(publisher)),
        }
    }

    pub(crate) fn connection(&mut self, peer: Peer) -> Option<&mut Connection> {
        self.slot(peer)?.as_mut()
    }

    /// All packets that are whole now, one after the other.
    fn bytes(&mut self, peer: Peer, bytes: &[u8]) {
        let Some(connection) = self.connection(peer) else {
            return;
        };
        connection.session.feed(bytes);
        loop {
            let moment = self.moment();
            // Gone if a packet led to its end.
            let Some(connection) = self.connection(peer) else {
                return;
            };
            match connection.session.next(moment) {
                Ok(None) => return,
                Ok(Some(packet)) => {
                    // What it leads to may change or end its own connection.
                    let (kind, body) = (packet.kind, packet.body.to_vec());
                    connection.heard = true;
                    self.packet(peer, kind, &body);
                }
                Err(fault) => return self.fault(peer, fault),
            }
        }
    }

    fn packet(&mut self, peer: Peer, kind: u32, body: &[u8]) {
        match kind {
            NONCE | HANDSHAKE => self.opening_packet(peer, kind),
            PING => self.send_or_close(peer, ToSend::Pong),
            PONG => self.counts.pongs += 1,
            _ => match read_message(side_towards(peer), kind, body) {
                Ok(message) => self.message(peer, message),
                Err(refusal) => self.unreadable(peer, kind, body, refusal),
            },
        }
    }

    fn message(&mut self, peer: Peer, message: Message) {
        match (peer, message) {
            (Peer::Front(link), Message::Invoke(invoke)) => self.invoke(link, invoke),
            (Peer::Front(link), Message::Cancel { number }) => self.cancel(link, number),
            (Peer::Publisher(publisher), Message::Result { number, answer }) => {
                self.answer(publisher, number, answer);
            }
            (_, Message::ClientFin | Message::ServerFin) => self.fin(peer),
            // The reader refuses messages that go the other way.
            _ => self.counts.unread += 1,
        }
    }

    /// Sends a packet, or says why it cannot be sent.
    pub(crate) fn send(&mut self, peer: Peer, what: ToSend) -> Result<(), Fault> {
        let moment = self.moment();
        let connection = self.connection(peer).ok_or(Refusal::LINK_CLOSED)?;
        connection.session.send(what, moment)?;
        self.hand_over_later(peer);
        Ok(())
    }

    /// The same of a message: the card is asked for a Nonce alone.
    pub(crate) fn send_message(&mut self, peer: Peer, message: Message) -> Result<(), Refusal> {
        let sent = self.send(peer, ToSend::Message(message));
        sent.map_err(|fault| match fault {
            Fault::Refused(refusal) => refusal,
            Fault::Card => Refusal::LINK_CLOSED,
        })
    }

    /// For packets that a link in order never refuses.
    pub(crate) fn send_or_close(&mut self, peer: Peer, what: ToSend) {
        if let Err(fault) = self.send(peer, what) {
            self.fault(peer, fault);
        }
    }

    /// What cannot be received or sent ends the connection.
    fn fault(&mut self, peer: Peer, fault: Fault) {
        self.count(peer, fault);
        self.close(peer);
    }

    /// It can be sent nothing more, so all that it asked or was asked ends now.
    fn slow(&mut self, peer: Peer) {
        self.counts.slow += 1;
        self.close(peer);
    }

    /// We end a connection.
    pub(crate) fn close(&mut self, peer: Peer) {
        if self.connection(peer).is_some() {
            self.counts.dropped += 1;
            self.hand_over(peer);
            self.actions.push(Action::Close(peer));
            self.gone(peer);
        }
    }

    /// A connection has ended, from whichever side.
    pub(crate) fn gone(&mut self, peer: Peer) {
        if self.slot(peer).and_then(Option::take).is_some() {
            self.end_requests(peer);
        }
    }
}
