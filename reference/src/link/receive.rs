//! Receiving packets.

use super::opening::{self, Nonce, Stage};
use super::packet::{self, Front, HANDSHAKE, NONCE, PING, PONG};
use super::{padding, Link, Received};
use crate::message::Side;
use crate::refusal::Refusal;

impl Link {
    /// Looks at the lent bytes from their front. In order: 20, 22, 26, 1, 3, 2,
    /// 4, 5, 6, 25, then 7, 8, 24, 9, 10 or 17, 21; all but 20 and 22 close the
    /// link.
    pub fn receive(&mut self, bytes: &[u8], our_time: u32) -> Result<Received, Refusal> {
        let peer = match self.settings.side {
            Side::Client => Side::Server,
            Side::Server => Side::Client,
        };
        self.is_turn_of(peer)?;
        let received = self.take(bytes, our_time);
        self.closed = received.is_err();
        received
    }

    /// The words before a packet, then the packet as if they were not there.
    fn take(&mut self, bytes: &[u8], our_time: u32) -> Result<Received, Refusal> {
        let words = self.words_before(bytes)?;
        let received = self.take_packet(&bytes[words..], our_time)?;
        Ok(received.behind(words))
    }

    fn take_packet(&mut self, bytes: &[u8], our_time: u32) -> Result<Received, Refusal> {
        let Some(length) = packet::length(bytes, self.stage != Stage::Open)? else {
            return Ok(Received::Wait(4 - bytes.len()));
        };
        let Some(front) = packet::front(bytes) else {
            return Ok(Received::Wait(12 - bytes.len()));
        };
        self.judge_front(front)?;
        let size = length + self.zeros_behind(length);
        let Some(whole) = bytes.get(..size) else {
            return Ok(Received::Wait(size - bytes.len()));
        };
        let (packet, zeros) = whole.split_at(length);
        let body = packet::checked_body(packet, self.checksum)?;
        padding::judge_zeros(zeros)?;
        let clock = self.accept(front.packet_type, body.of(packet), our_time)?;
        self.incoming = self.incoming.wrapping_add(1);
        Ok(Received::Packet {
            packet_type: front.packet_type,
            consumed: size,
            body,
            clock,
        })
    }

    fn judge_front(&self, front: Front) -> Result<(), Refusal> {
        if front.number != self.incoming {
            return Err(Refusal::PacketNumber);
        }
        if !self.type_is_allowed(front.packet_type) {
            return Err(Refusal::TypeNotNow);
        }
        Ok(())
    }

    /// What the packets of the link itself do to it; others pass. Hands back
    /// the clock difference of a Nonce.
    fn accept(&mut self, packet_type: u32, body: &[u8], time: u32) -> Result<Option<i64>, Refusal> {
        match packet_type {
            NONCE => return self.accept_nonce(body, time).map(Some),
            HANDSHAKE => self.accept_handshake(body)?,
            PING => self.accept_ping(packet::ping_id(body)?)?,
            PONG => self.accept_pong(packet::ping_id(body)?)?,
            _ => {}
        }
        Ok(None)
    }

    fn accept_nonce(&mut self, body: &[u8], our_time: u32) -> Result<i64, Refusal> {
        let nonce = Nonce::read(body)?;
        let clock = nonce.clock(our_time)?;
        nonce.judge_lowest(self.settings.lowest_version)?;
        let chosen = self.choose(&nonce)?;
        nonce.judge_version(self.settings.side)?;
        self.ciphered = chosen;
        self.their_version = nonce.version;
        self.stage = self.stage.after();
        Ok(clock)
    }

    fn accept_handshake(&mut self, body: &[u8]) -> Result<(), Refusal> {
        let flag = opening::read_handshake(body)?;
        match self.settings.side {
            Side::Server => self.crc32c_offered = flag,
            // We offered it if our setting allows it.
            Side::Client if flag && !self.settings.crc32c_allowed => {
                return Err(Refusal::BeyondOffer)
            }
            Side::Client => self.switch_checksum(flag),
        }
        self.stage = self.stage.after();
        Ok(())
    }

    fn accept_ping(&mut self, id: u64) -> Result<(), Refusal> {
        if self.owed.is_some() {
            return Err(Refusal::PingOutOfTurn);
        }
        self.owed = Some(id);
        Ok(())
    }

    fn accept_pong(&mut self, id: u64) -> Result<(), Refusal> {
        if self.awaited != Some(id) {
            return Err(Refusal::PingOutOfTurn);
        }
        self.awaited = None;
        Ok(())
    }
}
