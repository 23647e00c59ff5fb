//! What the Nonces choose, by document 02, A9.

use relay::{Cipher, Side};

/// What a client offers.
pub fn offer(client: Cipher) -> u8 {
    match client {
        Cipher::ClearOnly => 0,
        Cipher::CipherOnly => 1,
        Cipher::Either => 2,
    }
}

/// What a server answers to a client's encryption; none if it refuses it (9).
pub fn answer(server: Cipher, offered: u8) -> Option<u8> {
    match (server, offered) {
        (Cipher::ClearOnly, 1) | (Cipher::CipherOnly, 0) => None,
        (Cipher::ClearOnly, _) | (Cipher::Either, 0) => Some(0),
        (Cipher::CipherOnly | Cipher::Either, _) => Some(1),
    }
}

/// Whether a client takes a server's answer (else 9).
pub fn is_taken(client: Cipher, answered: u8) -> bool {
    match client {
        Cipher::ClearOnly => answered == 0,
        Cipher::CipherOnly => answered == 1,
        Cipher::Either => answered < 2,
    }
}

/// What is chosen when one of our ends gets a Nonce with this encryption.
pub fn chosen(side: Side, ours: Cipher, theirs: u8) -> Option<u8> {
    match side {
        Side::Server => answer(ours, theirs),
        Side::Client => is_taken(ours, theirs).then_some(theirs),
    }
}
