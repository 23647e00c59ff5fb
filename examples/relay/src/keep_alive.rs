//! Whether the other ends still live.

use crate::core::Core;
use crate::event::Peer;
use relay::{ToSend, LINKS, PUBLISHERS};

impl Core {
    /// A Ping to everyone whose link is open. A connection ends if a Ping is
    /// unanswered and nothing else came either.
    pub(crate) fn tick(&mut self) {
        let fronts = (0..LINKS).map(Peer::Front);
        for peer in fronts.chain((0..PUBLISHERS).map(Peer::Publisher)) {
            let id = self.next_ping;
            let connection = self.connection(peer);
            let Some(connection) = connection.filter(|connection| connection.session.is_open())
            else {
                continue;
            };
            let heard = std::mem::replace(&mut connection.heard, false);
            if self.send(peer, ToSend::Ping { id }).is_ok() {
                self.next_ping += 1;
                self.counts.pings += 1;
            } else if !heard {
                self.close(peer);
            }
        }
    }
}
