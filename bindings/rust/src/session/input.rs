//! What came, and how much of it may be shown to the link.

use crate::cipher::{Decipher, BLOCK};
use std::ops::Range;

/// A longer buffer is not kept once its packets are handled.
const KEPT: usize = 65_536;

/// Bytes in the order in which they came: packets have used the first, those
/// up to `clear` may be shown to the link, and the others are ciphered still.
#[derive(Default)]
pub struct Input {
    bytes: Vec<u8>,
    used: usize,
    clear: usize,
    state: State,
}

#[derive(Default)]
enum State {
    /// All is clear: the other side's Nonce has not come, or chose no cipher.
    #[default]
    Clear,
    /// Behind its Nonce all is ciphered, and there are no keys yet.
    Sealed,
    Ciphered(Decipher),
}

impl Input {
    pub fn feed(&mut self, bytes: &[u8]) {
        self.let_go();
        self.bytes.extend_from_slice(bytes);
        self.open();
    }

    /// What the link may be shown.
    pub fn clear(&self) -> &[u8] {
        &self.bytes[self.used..self.clear]
    }

    /// A packet has used the first of the clear bytes; its body, for `part`.
    pub fn used(&mut self, consumed: usize, body: Range<usize>) -> Range<usize> {
        let front = self.used;
        self.used += consumed;
        front + body.start..front + body.end
    }

    /// Of what came, until something is let go.
    pub fn part(&self, part: &Range<usize>) -> &[u8] {
        &self.bytes[part.clone()]
    }

    /// What packets have used is not needed any more.
    pub fn let_go(&mut self) {
        if self.used > 0 {
            self.bytes.drain(..self.used);
            self.bytes.shrink_to(KEPT);
            self.clear -= self.used;
            self.used = 0;
        }
    }

    /// All behind the last packet is ciphered, even what came together with it.
    pub fn seal(&mut self) {
        if let State::Clear = self.state {
            self.state = State::Sealed;
            self.clear = self.used;
        }
    }

    pub fn unseal(&mut self, decipher: Decipher) {
        self.state = State::Ciphered(decipher);
        self.open();
    }

    /// Makes clear what can be: of a block that is not whole nothing can.
    fn open(&mut self) {
        match &mut self.state {
            State::Clear => self.clear = self.bytes.len(),
            State::Sealed => {}
            State::Ciphered(decipher) => {
                let there = self.bytes.len() - self.clear;
                let end = self.clear + there / BLOCK * BLOCK;
                let whole = decipher.decipher(&mut self.bytes[self.clear..end]);
                whole.expect("a multiple of a block's size is never refused (37)");
                self.clear = end;
            }
        }
    }
}

#[cfg(test)]
mod tests {
    use super::*;
    use crate::{Addresses, Card, Cipher, Moment, Session, Settings, Side, ToSend};

    #[test]
    fn a_long_buffer_is_kept_only_while_a_packet_needs_it() {
        let long = 16 * KEPT;
        let mut input = Input::default();
        input.feed(&vec![1; long]);
        input.let_go();
        assert_eq!(input.clear().len(), long);
        assert_eq!(input.used(long - 3, 5..9), 5..9);
        assert_eq!(input.used(1, 0..1), long - 3..long - 2);
        input.let_go();
        assert_eq!(input.clear(), [1; 2]);
        assert!(input.bytes.capacity() <= KEPT);
    }

    #[test]
    fn behind_a_seal_nothing_is_clear() {
        let mut input = Input::default();
        input.feed(b"nonce and more");
        input.used(5, 0..5);
        input.seal();
        input.feed(&[1; 100]);
        assert_eq!(input.clear(), []);
    }

    struct Ones;

    impl Card for Ones {
        fn point(&mut self) -> [u8; 32] {
            [1; 32]
        }

        fn shared(&mut self, _: &[u8; 32]) -> Option<[u8; 32]> {
            Some([1; 32])
        }
    }

    #[test]
    fn a_closed_session_has_no_input_and_no_keys_for_it() {
        let moment = Moment { time: 1 };
        let [mut client, mut server] = [Side::Client, Side::Server].map(|side| {
            let settings = Settings::new(side, true).with_cipher(Cipher::CipherOnly);
            Session::with_key(settings, &[1; 32], Ones, Addresses::default()).unwrap()
        });
        let nonce = ToSend::Nonce { random: [7; 16] };
        client.send(nonce, moment).unwrap();
        server.feed(&client.take_output());
        server.next(moment).unwrap().expect("a Nonce");
        server.send(nonce, moment).unwrap();
        assert!(matches!(server.input.state, State::Ciphered(_)));
        // Deciphered, this is no packet.
        server.feed(&[0; 64]);
        assert!(server.next(moment).is_err() && server.is_closed());
        assert!(matches!(server.input.state, State::Clear));
        assert_eq!(server.input.bytes.capacity(), 0);
    }
}
