//! New connections, and the opening of their links: Nonces, then Handshakes.

use crate::connection::{side_towards, Connection};
use crate::core::Core;
use crate::event::{Action, Opening, Peer, Warning};
use relay::packet_type::NONCE;
use relay::{Fault, Refusal, Side, ToSend};

impl Core {
    /// As client we begin the opening.
    pub(crate) fn connected(&mut self, peer: Peer, opening: Opening) {
        self.gone(peer);
        let random = opening.random;
        let settings = self.settings(peer);
        let connection = settings.and_then(|settings| Connection::new(settings, opening).ok());
        match (connection, self.slot(peer)) {
            (Some(connection), Some(slot)) => *slot = Some(connection),
            _ => {
                self.counts.turned_away += 1;
                return self.actions.push(Action::Close(peer));
            }
        }
        if side_towards(peer) == Side::Client {
            self.send_or_close(peer, ToSend::Nonce { random });
        }
    }

    /// A server answers with the same packet, a client with the next one.
    pub(crate) fn opening_packet(&mut self, peer: Peer, kind: u32) {
        let Some(connection) = self.connection(peer) else {
            return;
        };
        let nonce = ToSend::Nonce {
            random: connection.random,
        };
        let handshake = ToSend::Handshake {
            sender: connection.own,
            peer: connection.peer,
        };
        connection.is_handshaken = kind != NONCE;
        match (side_towards(peer), kind) {
            (Side::Server, NONCE) => self.send_or_close(peer, nonce),
            (Side::Server, _) | (Side::Client, NONCE) => self.send_or_close(peer, handshake),
            (Side::Client, _) => {}
        }
    }

    /// Counts why a connection ends, and warns where operations have to know.
    pub(crate) fn count(&mut self, peer: Peer, fault: Fault) {
        let Some(connection) = self.connection(peer) else {
            return;
        };
        let is_first = connection.session.is_ciphered() && !connection.is_handshaken;
        let Fault::Refused(refusal) = fault else {
            self.counts.bad_points += 1;
            return self.actions.push(Action::Warn(peer, Warning::BadPoint));
        };
        *self.counts.faults.entry(refusal.number()).or_default() += 1;
        // Under other keys the first packet that went through the cipher has a
        // wrong length or number. If what is judged after them is wrong, the keys
        // were right.
        let by_other_keys = [
            Refusal::LENGTH_UNDER_16,
            Refusal::LENGTH_IN_OPENING,
            Refusal::PACKET_NUMBER,
        ];
        if is_first && by_other_keys.contains(&refusal) {
            self.counts.other_keys += 1;
            self.actions.push(Action::Warn(peer, Warning::OtherKeys));
        }
    }

    /// Whatever came of it: a link that is not open by now is not waited for.
    pub(crate) fn opening_over(&mut self, peer: Peer) {
        let connection = self.connection(peer);
        if connection.is_some_and(|connection| !connection.session.is_open()) {
            self.counts.unopened += 1;
            self.close(peer);
        }
    }
}
