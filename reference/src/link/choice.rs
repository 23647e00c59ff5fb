//! Document 02, A9: what the Nonces say about the cipher, and whether it is
//! chosen. The link itself ciphers nothing: its driver does, outside.

use super::opening::{nonce_body, Nonce};
use super::Link;
use crate::message::Side;
use crate::refusal::Refusal;

/// How a link may go.
#[derive(Clone, Copy, Debug, PartialEq, Eq)]
pub enum Cipher {
    ClearOnly,
    CipherOnly,
    Either,
}

impl Cipher {
    /// The byte Encryption of a client's Nonce.
    fn offer(self) -> u8 {
        match self {
            Cipher::ClearOnly => 0,
            Cipher::CipherOnly => 1,
            Cipher::Either => 2,
        }
    }

    /// Whether a server takes the cipher, by the byte of the client's Nonce: 0
    /// excludes it, 1 demands it, all else leaves the choice.
    fn answer(self, offered: u8) -> Result<bool, Refusal> {
        match (self, offered) {
            (Cipher::ClearOnly, 1) | (Cipher::CipherOnly, 0) => Err(Refusal::Encryption),
            (Cipher::ClearOnly, _) | (Cipher::Either, 0) => Ok(false),
            (Cipher::CipherOnly | Cipher::Either, _) => Ok(true),
        }
    }

    /// Whether the server took it, by the byte of its Nonce, which must lie
    /// within a client's offer.
    fn taken(self, answered: u8) -> Result<bool, Refusal> {
        match (self, answered) {
            (Cipher::ClearOnly | Cipher::Either, 0) => Ok(false),
            (Cipher::CipherOnly | Cipher::Either, 1) => Ok(true),
            _ => Err(Refusal::Encryption),
        }
    }
}

impl Link {
    /// Whether the cipher is chosen, by their Nonce. Their KeyID is compared
    /// only then: a server does not go clear because of another one.
    pub(super) fn choose(&self, nonce: &Nonce) -> Result<bool, Refusal> {
        let cipher = self.settings.cipher;
        let chosen = match self.settings.side {
            Side::Client => cipher.taken(nonce.encryption)?,
            Side::Server => cipher.answer(nonce.encryption)?,
        };
        if chosen && nonce.key_id != self.key_id {
            return Err(Refusal::Encryption);
        }
        Ok(chosen)
    }

    /// The byte Encryption of our Nonce: a client's offer or a server's choice.
    fn encryption(&self) -> u8 {
        match self.settings.side {
            Side::Client => self.settings.cipher.offer(),
            Side::Server => self.ciphered.into(),
        }
    }

    /// Our Nonce. KeyID and point are in it if it offers or takes the cipher,
    /// whatever its version.
    pub(super) fn nonce_body(&self, time: u32, random: [u8; 16], point: [u8; 32]) -> Vec<u8> {
        let mut body = nonce_body(self.version(), time, random);
        body[4] = self.encryption();
        if body[4] != 0 {
            body[..4].copy_from_slice(&self.key_id);
            body[28..].copy_from_slice(&point);
        }
        body
    }
}
