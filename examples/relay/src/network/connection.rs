//! A connection as the core's thread holds it, with its deadlines. While
//! anything waits for its peer it is held, and with it its link: so what waits
//! for all peers together is bounded too, however often they come and go.

use super::stream::Queue;
use std::net::{Shutdown, TcpStream};
use std::sync::Arc;
use std::time::Instant;

pub struct Connection {
    pub serial: u64,
    stream: Arc<TcpStream>,
    stage: Stage,
}

enum Stage {
    Live {
        queue: Queue,
        /// When its opening must be done; none once that time is over.
        opened_by: Option<Instant>,
    },
    /// The core has dropped it. What is queued may be written until then.
    Dropped { until: Instant },
    /// Nothing more is read or written, and its threads end.
    Shut,
}

/// A connection was given up.
pub struct GivenUp;

impl Connection {
    pub fn new(
        serial: u64,
        stream: Arc<TcpStream>,
        queue: Queue,
        opened_by: Instant,
    ) -> Connection {
        let opened_by = Some(opened_by);
        let stage = Stage::Live { queue, opened_by };
        Connection {
            serial,
            stream,
            stage,
        }
    }

    pub fn is_live(&self) -> bool {
        matches!(self.stage, Stage::Live { .. })
    }

    /// Alive, and nothing waits for its peer.
    pub fn is_idle(&self) -> bool {
        matches!(&self.stage, Stage::Live { queue, .. } if queue.is_empty())
    }

    /// Queues a packet. If the queue has no room for it, the connection is
    /// shut at once: without this packet, what would follow is of no use, and
    /// a peer so far behind does not earn more time.
    pub fn send(&mut self, packet: Vec<u8>) -> Result<(), GivenUp> {
        match &self.stage {
            Stage::Live { queue, .. } if !queue.has_room(packet.len()) => {
                self.shut();
                Err(GivenUp)
            }
            Stage::Live { queue, .. } => {
                queue.send(packet);
                Ok(())
            }
            Stage::Dropped { .. } | Stage::Shut => Ok(()),
        }
    }

    /// Nothing more is queued, and what is has time until then: a peer that
    /// reads a byte now and then would keep its writer busy for ever.
    pub fn drop_by(&mut self, until: Instant) {
        if self.is_live() {
            self.stage = Stage::Dropped { until };
        }
    }

    pub fn shut(&mut self) {
        self.stage = Stage::Shut;
        // Of a connection that has ended already, this is refused.
        let _ = self.stream.shutdown(Shutdown::Both);
    }

    pub fn deadline(&self) -> Option<Instant> {
        match self.stage {
            Stage::Live { opened_by, .. } => opened_by,
            Stage::Dropped { until } => Some(until),
            Stage::Shut => None,
        }
    }

    /// Its deadline is over. True if it was that of the opening.
    pub fn expire(&mut self) -> bool {
        match &mut self.stage {
            Stage::Live { opened_by, .. } => opened_by.take().is_some(),
            Stage::Dropped { .. } | Stage::Shut => {
                self.shut();
                false
            }
        }
    }
}
