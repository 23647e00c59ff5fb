//! The opening of a link: its order, and the bodies of Nonce and Handshake.

use super::packet::{HANDSHAKE, NONCE};
use crate::message::Side;
use crate::numbers::read_u32;
use crate::refusal::Refusal;

/// Which packet comes next, or that the opening is over.
#[derive(Clone, Copy, Debug, PartialEq, Eq)]
pub enum Stage {
    ClientNonce,
    ServerNonce,
    ClientHandshake,
    ServerHandshake,
    Open,
}

impl Stage {
    /// Who sends the next packet of the opening, and its type.
    pub fn next(self) -> Option<(Side, u32)> {
        match self {
            Stage::ClientNonce => Some((Side::Client, NONCE)),
            Stage::ServerNonce => Some((Side::Server, NONCE)),
            Stage::ClientHandshake => Some((Side::Client, HANDSHAKE)),
            Stage::ServerHandshake => Some((Side::Server, HANDSHAKE)),
            Stage::Open => None,
        }
    }

    pub fn after(self) -> Stage {
        match self {
            Stage::ClientNonce => Stage::ServerNonce,
            Stage::ServerNonce => Stage::ClientHandshake,
            Stage::ClientHandshake => Stage::ServerHandshake,
            Stage::ServerHandshake | Stage::Open => Stage::Open,
        }
    }
}

pub const OUR_VERSION: u8 = 2;
const FARTHEST_CLOCK: i64 = 30;

/// Version 2 brought the DH point, and later ones keep it: document 01 wants
/// room for it in all of them.
pub fn has_point(version: u8) -> bool {
    version >= 2
}

/// What a Nonce says that we heed.
pub struct Nonce {
    pub key_id: [u8; 4],
    pub encryption: u8,
    pub version: u8,
    pub time: u32,
}

impl Nonce {
    /// Without the DH point it has 28 bytes, with it 60.
    pub fn read(body: &[u8]) -> Result<Nonce, Refusal> {
        let shortest = match body.get(5) {
            Some(version) if has_point(*version) => 60,
            _ => 28,
        };
        if body.len() < shortest {
            return Err(Refusal::OpeningBodyShort);
        }
        Ok(Nonce {
            key_id: body[..4].try_into().expect("four bytes"),
            encryption: body[4],
            version: body[5],
            time: read_u32(body, 8),
        })
    }

    /// Their time minus ours as whole numbers: times do not wrap.
    pub fn clock(&self, our_time: u32) -> Result<i64, Refusal> {
        let clock = i64::from(self.time) - i64::from(our_time);
        if clock.abs() > FARTHEST_CLOCK {
            return Err(Refusal::Clocks);
        }
        Ok(clock)
    }

    /// Either side may refuse to speak versions that are too old for it.
    pub fn judge_lowest(&self, lowest: u8) -> Result<(), Refusal> {
        if self.version < lowest {
            return Err(Refusal::VersionTooLow);
        }
        Ok(())
    }

    pub fn judge_version(&self, reader: Side) -> Result<(), Refusal> {
        if reader == Side::Client && self.version > OUR_VERSION {
            return Err(Refusal::BeyondOffer);
        }
        Ok(())
    }
}

/// As it is without the cipher: KeyID, encryption, flags and DH point are 0.
pub fn nonce_body(version: u8, time: u32, random: [u8; 16]) -> Vec<u8> {
    let mut body = vec![0, 0, 0, 0, 0, version, 0, 0];
    body.extend(time.to_le_bytes());
    body.extend(random);
    body.extend([0; 32]);
    body
}

pub const FLAG_CRC32C: u32 = 0x800;
const SHORTEST_HANDSHAKE: usize = 28;

/// Whether the flag for CRC-32C is set; nothing else in it is heeded.
pub fn read_handshake(body: &[u8]) -> Result<bool, Refusal> {
    if body.len() < SHORTEST_HANDSHAKE {
        return Err(Refusal::OpeningBodyShort);
    }
    Ok(read_u32(body, 0) & FLAG_CRC32C != 0)
}

pub fn handshake_body(flag: bool, own: [u8; 12], peer: [u8; 12]) -> Vec<u8> {
    let flags = if flag { FLAG_CRC32C } else { 0 };
    let mut body = flags.to_le_bytes().to_vec();
    body.extend(own);
    body.extend(peer);
    body
}
