//! Receiving as a user would write it by hand: a link after its opening, without its Ping and Pong.

use super::RelayArrival;

#[derive(Clone, Copy, Default)]
pub struct Plain<const PADDED: bool> {
    gets: u32,
    closed: bool,
}

impl<const PADDED: bool> Plain<PADDED> {
    pub fn receive(&mut self, bytes: &[u8], sum: impl Fn(&[u8]) -> u32) -> RelayArrival {
        let none = RelayArrival::default();
        if self.closed {
            return RelayArrival { refusal: 20, ..none };
        }
        match self.look(bytes, sum) {
            Ok(answer) => answer,
            Err(refusal) => {
                self.closed = true;
                RelayArrival { refusal, ..none }
            }
        }
    }

    fn look(&mut self, bytes: &[u8], sum: impl Fn(&[u8]) -> u32) -> Result<RelayArrival, u8> {
        let before = if PADDED { words(bytes)? } else { 0 };
        let bytes = &bytes[before..];
        let wait = |k: usize| Ok(RelayArrival { tag: 1, more: k - bytes.len(), ..RelayArrival::default() });
        let word = |at: usize| bytes[at..].first_chunk().map(|b| u32::from_le_bytes(*b)).unwrap_or(0);
        if bytes.len() < 4 {
            return wait(4);
        }
        let length = word(0) as usize;
        if length < 16 {
            return Err(1);
        }
        if length > 16_777_215 {
            return Err(2);
        }
        if bytes.len() < 12 {
            return wait(12);
        }
        if word(4) != self.gets {
            return Err(4);
        }
        let kind = word(8);
        if kind == 0x7acb_87aa || kind == 0x7682_eef5 {
            return Err(5);
        }
        let used = if PADDED { length.next_multiple_of(4) } else { length };
        if bytes.len() < used {
            return wait(used);
        }
        if sum(&bytes[..length - 4]) != word(length - 4) {
            return Err(6);
        }
        if bytes[length..used].iter().any(|&byte| byte != 0) {
            return Err(25);
        }
        self.gets = self.gets.wrapping_add(1);
        let (consumed, at) = (before + used, before + 12);
        Ok(RelayArrival { tag: 2, kind, consumed, at, len: length - 16, ..RelayArrival::default() })
    }
}

/// How many bytes the words before a packet take.
fn words(bytes: &[u8]) -> Result<usize, u8> {
    match bytes.chunks_exact(4).take(4).take_while(|word| **word == [4, 0, 0, 0]).count() {
        4 => Err(26),
        words => Ok(words * 4),
    }
}
