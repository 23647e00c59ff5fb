//! What stands between the packets of a padded link: zeros behind each packet
//! from the Handshake on, and words before each packet after the Handshake.
//! Links that are padded by hand and those that are ciphered have both, all
//! others neither.

use super::opening::Stage;
use super::{packet, Link, Received};
use crate::message::Span;
use crate::refusal::Refusal;

/// No packet has this length, so a word is never taken for one.
const WORD: [u8; 4] = [4, 0, 0, 0];
const MOST_WORDS: usize = 3;

/// A cipher's block; a flush ends one.
const BLOCK: u64 = 16;

pub fn judge_zeros(zeros: &[u8]) -> Result<(), Refusal> {
    if zeros.iter().any(|byte| *byte != 0) {
        return Err(Refusal::PaddingNotZero);
    }
    Ok(())
}

/// The size in bytes of the words that `bytes` begin with.
fn words(bytes: &[u8]) -> Result<usize, Refusal> {
    let is_word = |four: &&[u8]| **four == WORD;
    let words = bytes.chunks_exact(4).take_while(is_word);
    match words.take(MOST_WORDS + 1).count() {
        words @ 0..=MOST_WORDS => Ok(words * WORD.len()),
        _ => Err(Refusal::FourthWord),
    }
}

impl Received {
    /// The same with so many bytes before it that belong to it. What it waits
    /// for does not depend on bytes that are there already.
    pub(super) fn behind(mut self, before: usize) -> Received {
        if let Received::Packet { consumed, body, .. } = &mut self {
            *consumed += before;
            *body = Span {
                at: body.at + before,
                ..*body
            };
        }
        self
    }
}

impl Link {
    /// Writes the words that end a block at the front of `buffer` and hands
    /// back their size in bytes: none before our Handshake, on unpadded links
    /// and where a block has just ended. It has no turn. 20, then 16; neither
    /// moves the link.
    pub fn flush(&mut self, buffer: &mut [u8]) -> Result<usize, Refusal> {
        if self.closed {
            return Err(Refusal::LinkClosed);
        }
        let words = WORD.repeat(self.words_due());
        packet::put(buffer, &words)?;
        self.count_written(words.len());
        Ok(words.len())
    }

    /// On ciphered links nothing sets the padding but the cipher: it holds at
    /// both ends, since both chose the cipher before either Handshake.
    fn is_padded(&self) -> bool {
        self.settings.padded || self.ciphered
    }

    /// A padded link has written whole words since its Handshake.
    fn words_due(&self) -> usize {
        if !self.is_padded() {
            return 0;
        }
        let over = self.since_handshake % BLOCK;
        (BLOCK - over) as usize % BLOCK as usize / WORD.len()
    }

    /// For whatever is written now. No link lives for 2^64 bytes; past them
    /// the blocks would still be right.
    pub(super) fn count_written(&mut self, size: usize) {
        if self.is_past_nonces() {
            self.since_handshake = self.since_handshake.wrapping_add(size as u64);
        }
    }

    /// How many zeros follow the packet that goes over next, either way.
    pub(super) fn zeros_behind(&self, length: usize) -> usize {
        if self.is_padded() && self.is_past_nonces() {
            packet::zeros(length)
        } else {
            0
        }
    }

    /// The size of the words before the packet that `bytes` hold. Whatever we
    /// receive in the opening is a Nonce or a Handshake, which has none: there
    /// a word is a length that is too short.
    pub(super) fn words_before(&self, bytes: &[u8]) -> Result<usize, Refusal> {
        if self.is_padded() && self.stage == Stage::Open {
            words(bytes)
        } else {
            Ok(0)
        }
    }
}
