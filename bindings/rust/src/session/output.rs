//! What is sent and not handed out yet.

use crate::cipher::Encipher;
use crate::{Link, Moment, Refusal, ToSend};

/// The most that a flush writes: three words.
const WORDS: usize = 12;

/// Packets one behind the other. The first bytes, up to `clear`, go out as they
/// are where there is a cipher: our Nonce, if it was not handed out before.
#[derive(Default)]
pub struct Output {
    bytes: Vec<u8>,
    clear: usize,
    cipher: Option<Encipher>,
}

impl Output {
    /// Writes a packet, and shows it.
    pub fn add(&mut self, link: &mut Link, what: ToSend, moment: Moment) -> Result<&[u8], Refusal> {
        let before = self.bytes.len();
        self.bytes.resize(before + what.room(), 0);
        let sent = link.send(&mut self.bytes[before..], what, moment);
        self.bytes.truncate(before + sent.unwrap_or(0));
        sent.map(|_| &self.bytes[before..])
    }

    /// From here on all is enciphered.
    pub fn encipher(&mut self, cipher: Encipher) {
        self.clear = self.bytes.len();
        self.cipher = Some(cipher);
    }

    /// All of it, flushed and enciphered. A closed link cannot be flushed (20),
    /// and what was not flushed is not enciphered and goes nowhere.
    pub fn take(&mut self, link: &mut Link) -> Vec<u8> {
        let before = self.bytes.len();
        self.bytes.resize(before + WORDS, 0);
        let end = match (link.flush(&mut self.bytes[before..]), &self.cipher) {
            (Ok(size), _) => before + size,
            (Err(_), None) => before,
            (Err(_), Some(_)) => self.clear,
        };
        self.bytes.truncate(end);
        if let Some(cipher) = &mut self.cipher {
            // A flush brings all that was written since our Handshake's first
            // byte to whole blocks, and what was handed out before was that too;
            // between our Nonce and our Handshake nothing is written.
            let whole = cipher.encipher(&mut self.bytes[self.clear..]);
            whole.expect("what a flush ends is never refused (37)");
        }
        self.clear = 0;
        std::mem::take(&mut self.bytes)
    }
}
