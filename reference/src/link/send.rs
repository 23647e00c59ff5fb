//! Sending packets.

use super::opening::{handshake_body, OUR_VERSION};
use super::{packet, Link, Outgoing};
use crate::message::{self, Side};
use crate::refusal::Refusal;

impl Link {
    /// Writes the packet at the front of `buffer`, on padded links with the
    /// zeros behind it, and hands back the size of all that. In order: 20, 22,
    /// 5, 21, 19, 12, 15, 2, 16; none closes or moves the link.
    pub fn send(&mut self, outgoing: &Outgoing, buffer: &mut [u8]) -> Result<usize, Refusal> {
        self.is_turn_of(self.settings.side)?;
        let packet_type = outgoing.packet_type();
        if !self.type_is_allowed(packet_type) {
            return Err(Refusal::TypeNotNow);
        }
        let body = self.body(outgoing)?;
        let mut packet = packet::whole(self.outgoing, packet_type, &body, self.checksum);
        packet.resize(packet.len() + self.zeros_behind(packet.len()), 0);
        packet::put(buffer, &packet)?;
        self.count_written(packet.len());
        self.sent(outgoing);
        Ok(packet.len())
    }

    fn body(&self, outgoing: &Outgoing) -> Result<Vec<u8>, Refusal> {
        match outgoing {
            Outgoing::Nonce(time, random, point) => Ok(self.nonce_body(*time, *random, *point)),
            Outgoing::Handshake(own, peer) => Ok(handshake_body(self.sets_flag(), *own, *peer)),
            Outgoing::Ping(_) if self.awaited.is_some() => Err(Refusal::PingOutOfTurn),
            Outgoing::Ping(id) => Ok(id.to_le_bytes().to_vec()),
            Outgoing::Pong => {
                let id = self.owed.ok_or(Refusal::PingOutOfTurn)?;
                Ok(id.to_le_bytes().to_vec())
            }
            Outgoing::Message(message) if message.sender() != self.settings.side => {
                Err(Refusal::NotThisWay)
            }
            Outgoing::Message(message) => message::body(message),
        }
    }

    /// The version that our Nonce bears.
    pub(super) fn version(&self) -> u8 {
        match self.settings.side {
            Side::Client => OUR_VERSION,
            Side::Server => self.their_version.min(OUR_VERSION),
        }
    }

    /// Whether our Handshake sets the flag for CRC-32C.
    fn sets_flag(&self) -> bool {
        match self.settings.side {
            Side::Client => self.settings.crc32c_allowed,
            Side::Server => self.settings.crc32c_allowed && self.crc32c_offered,
        }
    }

    fn sent(&mut self, outgoing: &Outgoing) {
        self.outgoing = self.outgoing.wrapping_add(1);
        match outgoing {
            Outgoing::Nonce(..) => self.stage = self.stage.after(),
            Outgoing::Handshake(..) => {
                if self.settings.side == Side::Server {
                    self.switch_checksum(self.sets_flag());
                }
                self.stage = self.stage.after();
            }
            Outgoing::Ping(id) => self.awaited = Some(*id),
            Outgoing::Pong => self.owed = None,
            Outgoing::Message(_) => {}
        }
    }
}
