//! One connection of the relay: its session, and what the relay knows of it.

use crate::event::{Opening, Peer};
use crate::settings::LinkSettings;
use relay::{NetPid, Refusal, Session, Side};

pub struct Connection {
    /// Clear and ciphered ones are the same here.
    pub session: Session,
    /// For our Nonce.
    pub random: [u8; 16],
    /// For our Handshake.
    pub own: NetPid,
    pub peer: NetPid,
    /// The other side's Handshake came.
    pub is_handshaken: bool,
    /// A fin came: no new request goes over it.
    pub fin: bool,
    /// How many requests are in flight with a publisher, so that its last
    /// answer after a fin is known; the table tells no count.
    pub in_flight: usize,
    /// A packet came since the last tick.
    pub heard: bool,
}

impl Connection {
    pub fn new(settings: &LinkSettings, opening: Opening) -> Result<Connection, Refusal> {
        let Opening {
            random,
            own,
            peer,
            card,
        } = opening;
        Ok(Connection {
            session: settings.session(card, own, peer)?,
            random,
            own,
            peer,
            is_handshaken: false,
            fin: false,
            in_flight: 0,
            heard: false,
        })
    }

    pub fn takes_requests(&self) -> bool {
        self.session.is_open() && !self.fin
    }

    /// After a publisher's fin: its last answer came.
    pub fn is_done(&self) -> bool {
        self.fin && self.in_flight == 0
    }
}

/// The side that we are on a connection.
pub fn side_towards(peer: Peer) -> Side {
    match peer {
        Peer::Front(_) => Side::Server,
        Peer::Publisher(_) => Side::Client,
    }
}
