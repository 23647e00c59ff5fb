//! What an event sends. All packets for a peer are one output, taken at the
//! event's end, since nobody knows when the next event comes: so there is one
//! flush for each peer and event, and not for each packet (document 02, A7), and
//! on a ciphered link whole blocks.

use crate::core::Core;
use crate::event::{Action, Peer};

impl Core {
    /// The session of the peer has an output.
    pub(crate) fn hand_over_later(&mut self, peer: Peer) {
        if !self.unwritten.contains(&peer) {
            self.unwritten.push(peer);
        }
    }

    /// The end of an event: of those that it closed all is handed over already.
    pub(crate) fn hand_over_all(&mut self) {
        for peer in std::mem::take(&mut self.unwritten) {
            self.hand_over(peer);
        }
    }

    /// A link that a fault of its peer has closed cannot be flushed: if it is
    /// padded, it ends within a block where the peer was sent something in the
    /// same event, and if it is ciphered, that does not go out.
    pub(crate) fn hand_over(&mut self, peer: Peer) {
        let Some(connection) = self.connection(peer) else {
            return;
        };
        let output = connection.session.take_output();
        if !output.is_empty() {
            self.actions.push(Action::Send(peer, output));
        }
    }
}
