//! What a link is told to send, with all the fields any packet may need.
//!
//! A record of it is kind (0 Nonce, 1 Handshake, 2 Ping, 3 Pong, 4 message),
//! time (4 bytes), random (16), own and peer NetPID (12 each), ping ID (8),
//! room (4), the fields of a message, then n (4) and n bytes: a message's
//! payload or text, or a Nonce's point, of which bytes that are not there are
//! 0 and those past it have no meaning. As with messages, fields without a
//! meaning still hold something.

use super::records::{self, push_run, Draft, Records};
use crate::link::Outgoing;

pub const NONCE: u8 = 0;
pub const HANDSHAKE: u8 = 1;
pub const PING: u8 = 2;
pub const PONG: u8 = 3;
pub const MESSAGE: u8 = 4;

#[derive(Clone, Copy)]
pub struct Sending<'a> {
    pub kind: u8,
    pub time: u32,
    pub random: [u8; 16],
    pub own: [u8; 12],
    pub peer: [u8; 12],
    pub ping_id: u64,
    pub draft: Draft,
    pub bytes: &'a [u8],
}

impl<'a> Sending<'a> {
    pub fn new(kind: u8) -> Sending<'a> {
        Sending {
            kind,
            time: 1_600_000_000,
            random: *b"sixteen at will.",
            own: *b"OWN1own2own3",
            peer: *b"PEERpeerPeer",
            ping_id: 0x0123_4567_89ab_cdef,
            draft: Draft::new(records::CANCEL, 99),
            bytes: b"",
        }
    }

    pub fn nonce(time: u32) -> Sending<'a> {
        Sending {
            time,
            ..Sending::new(NONCE)
        }
    }

    pub fn nonce_with(time: u32, point: &'a [u8]) -> Sending<'a> {
        Sending {
            bytes: point,
            ..Sending::nonce(time)
        }
    }

    pub fn handshake() -> Sending<'a> {
        Sending::new(HANDSHAKE)
    }

    pub fn ping(ping_id: u64) -> Sending<'a> {
        Sending {
            ping_id,
            ..Sending::new(PING)
        }
    }

    pub fn pong() -> Sending<'a> {
        Sending::new(PONG)
    }

    pub fn message(draft: Draft, bytes: &'a [u8]) -> Sending<'a> {
        Sending {
            draft,
            bytes,
            ..Sending::new(MESSAGE)
        }
    }

    /// One of every kind, and of every kind of message.
    pub fn every_kind(time: u32) -> Vec<Sending<'a>> {
        let mut sendings = vec![
            Sending::nonce(time),
            Sending::handshake(),
            Sending::ping(1),
            Sending::pong(),
        ];
        let drafts = (records::INVOKE..=records::ERROR).map(|kind| Draft::new(kind, 6));
        sendings.extend(drafts.map(|draft| Sending::message(draft, b"bytes")));
        sendings
    }

    fn point(&self) -> [u8; 32] {
        std::array::from_fn(|i| self.bytes.get(i).copied().unwrap_or(0))
    }

    pub fn outgoing(&self) -> Outgoing<'a> {
        match self.kind {
            NONCE => Outgoing::Nonce(self.time, self.random, self.point()),
            HANDSHAKE => Outgoing::Handshake(self.own, self.peer),
            PING => Outgoing::Ping(self.ping_id),
            PONG => Outgoing::Pong,
            MESSAGE => Outgoing::Message(self.draft.message(self.bytes)),
            kind => unreachable!("no packet of kind {kind} is stored"),
        }
    }

    pub fn push(&self, records: &mut Vec<u8>, room: usize) {
        records.push(self.kind);
        records.extend(self.time.to_le_bytes());
        records.extend(self.random);
        records.extend(self.own);
        records.extend(self.peer);
        records.extend(self.ping_id.to_le_bytes());
        records.extend((room as u32).to_le_bytes());
        self.draft.push(records);
        push_run(records, self.bytes);
    }

    /// And its room.
    pub fn take(records: &mut Records<'a>) -> (Sending<'a>, usize) {
        let mut sending = Sending {
            kind: records.u8(),
            time: records.u32(),
            random: records.array(),
            own: records.array(),
            peer: records.array(),
            ping_id: records.u64(),
            ..Sending::new(MESSAGE)
        };
        let room = records.u32() as usize;
        sending.draft = Draft::take(records);
        sending.bytes = records.run();
        (sending, room)
    }
}
