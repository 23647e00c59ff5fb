//! A link of document 01, at either side: its whole state, and what both the
//! receiving and the sending of packets ask of it.

mod choice;
mod key;
mod nonce_fields;
mod opening;
pub mod packet;
mod padding;
mod receive;
mod send;
#[cfg(test)]
mod tests;

use crate::checksum::{Polynomial, CRC32, CRC32C};
use crate::message::{Message, Side, Span};
use crate::refusal::Refusal;
use opening::Stage;
use packet::{HANDSHAKE, NONCE, PING, PONG};

pub use choice::Cipher;
pub use nonce_fields::{nonce_fields, NonceFields};
pub use opening::{handshake_body, nonce_body, Nonce, FLAG_CRC32C, OUR_VERSION};

/// What a driver says when it sets up a link.
#[derive(Clone, Copy, Debug, PartialEq, Eq)]
pub struct Settings {
    pub side: Side,
    pub crc32c_allowed: bool,
    /// A Nonce of theirs below it is refused. 0 if not said: none is.
    pub lowest_version: u8,
    /// Set by hand at both ends; nothing on the wire tells. False if not said.
    pub padded: bool,
    /// Clear only if not said.
    pub cipher: Cipher,
}

impl Settings {
    /// With everything else not said.
    pub fn new(side: Side, crc32c_allowed: bool) -> Settings {
        Settings {
            side,
            crc32c_allowed,
            lowest_version: 0,
            padded: false,
            cipher: Cipher::ClearOnly,
        }
    }

    /// Under a lowest version above ours a client would take no Nonce at all,
    /// and a server would answer with a version below it.
    fn judge(&self) -> Result<(), Refusal> {
        if self.lowest_version > OUR_VERSION {
            return Err(Refusal::OutOfRange);
        }
        Ok(())
    }
}

#[derive(Clone)]
pub struct Link {
    settings: Settings,
    stage: Stage,
    /// The number of the next packet in each direction.
    incoming: u32,
    outgoing: u32,
    checksum: Polynomial,
    /// What their Nonce said; a server answers it.
    their_version: u8,
    /// What their Handshake said, if they are the client.
    crc32c_offered: bool,
    /// The ID of our Ping that is not answered yet.
    awaited: Option<u64>,
    /// The ID of their Ping that we have not answered yet.
    owed: Option<u64>,
    /// How many bytes we wrote from the first byte of our Handshake on.
    since_handshake: u64,
    /// All that is kept of the key; zeros without one.
    key_id: [u8; 4],
    /// The Nonces chose the cipher.
    ciphered: bool,
    closed: bool,
}

/// All that a link knows, to be compared with what another program's link
/// knows.
#[derive(Clone, Copy, Debug, PartialEq, Eq)]
pub struct State {
    pub settings: Settings,
    pub closed: bool,
    /// How many packets of the opening went over; 4 after it.
    pub stage: u8,
    pub incoming: u32,
    pub outgoing: u32,
    /// Whether packets go under CRC-32C now.
    pub crc32c: bool,
    pub their_version: u8,
    pub awaited: Option<u64>,
    pub owed: Option<u64>,
    /// All bytes that it wrote from the first byte of its own Handshake on:
    /// packets, zeros and words of a flush; 0 before it.
    pub since_handshake: u64,
    /// Zeros for a link that was set up without a key.
    pub key_id: [u8; 4],
    /// The cipher was chosen, which their Nonce decides; false before it.
    pub ciphered: bool,
}

#[derive(Clone, Copy, Debug, PartialEq, Eq)]
pub enum Received {
    /// So many more bytes are needed.
    Wait(usize),
    Packet {
        packet_type: u32,
        /// How many of the lent bytes it took, on padded links with the words
        /// before it and the zeros behind it.
        consumed: usize,
        /// Within the lent bytes.
        body: Span,
        /// Their time minus ours, if it was a Nonce.
        clock: Option<i64>,
    },
}

#[derive(Clone, Copy)]
pub enum Outgoing<'a> {
    /// Our time, 16 random bytes, and the card's point, which is written only
    /// where the cipher is offered or taken.
    Nonce(u32, [u8; 16], [u8; 32]),
    /// Our NetPID and theirs.
    Handshake([u8; 12], [u8; 12]),
    Ping(u64),
    /// The ID is the one of the Ping that it answers.
    Pong,
    Message(Message<&'a [u8]>),
}

impl Outgoing<'_> {
    pub fn packet_type(&self) -> u32 {
        match self {
            Outgoing::Nonce(..) => NONCE,
            Outgoing::Handshake(..) => HANDSHAKE,
            Outgoing::Ping(_) => PING,
            Outgoing::Pong => PONG,
            Outgoing::Message(message) => message.packet_type(),
        }
    }
}

impl Link {
    /// A link with everything else not said.
    pub fn new(side: Side, crc32c_allowed: bool) -> Link {
        Link::fresh(Settings::new(side, crc32c_allowed))
    }

    /// A link with all its settings and no key. 36 if it may go ciphered, then
    /// 30 if its lowest version is above 2.
    pub fn set_up(settings: Settings) -> Result<Link, Refusal> {
        if settings.cipher != Cipher::ClearOnly {
            return Err(Refusal::BadKey);
        }
        settings.judge()?;
        Ok(Link::fresh(settings))
    }

    fn fresh(settings: Settings) -> Link {
        Link {
            settings,
            stage: Stage::ClientNonce,
            incoming: packet::FIRST_NUMBER,
            outgoing: packet::FIRST_NUMBER,
            checksum: CRC32,
            their_version: 0,
            crc32c_offered: false,
            awaited: None,
            owed: None,
            since_handshake: 0,
            key_id: [0; 4],
            ciphered: false,
            closed: false,
        }
    }

    pub fn is_closed(&self) -> bool {
        self.closed
    }

    /// The number and the checksum that the next packet received must have.
    pub fn expected(&self) -> (u32, Polynomial) {
        (self.incoming, self.checksum)
    }

    pub fn state(&self) -> State {
        State {
            settings: self.settings,
            closed: self.closed,
            stage: self.stage as u8,
            incoming: self.incoming,
            outgoing: self.outgoing,
            crc32c: self.checksum == CRC32C,
            their_version: self.their_version,
            awaited: self.awaited,
            owed: self.owed,
            since_handshake: self.since_handshake,
            key_id: self.key_id,
            ciphered: self.ciphered,
        }
    }

    fn is_turn_of(&self, side: Side) -> Result<(), Refusal> {
        if self.closed {
            return Err(Refusal::LinkClosed);
        }
        match self.stage.next() {
            Some((sender, _)) if sender != side => Err(Refusal::NotOurTurn),
            _ => Ok(()),
        }
    }

    /// Whether the packet that goes over next, either way, is a Handshake or
    /// comes after it: the Nonces of both directions go before both Handshakes.
    fn is_past_nonces(&self) -> bool {
        !matches!(self.stage, Stage::ClientNonce | Stage::ServerNonce)
    }

    /// In the opening only the next type will do; after it, any but its two.
    fn type_is_allowed(&self, packet_type: u32) -> bool {
        match self.stage.next() {
            Some((_, next)) => packet_type == next,
            None => packet_type != NONCE && packet_type != HANDSHAKE,
        }
    }

    /// At the server's Handshake, sent or received, which itself still has a
    /// CRC-32. Nothing is sent between the client's Handshake and it, so both
    /// directions switch here.
    fn switch_checksum(&mut self, to_crc32c: bool) {
        if to_crc32c {
            self.checksum = CRC32C;
        }
    }
}
