//! AES-256 in CBC mode, for each direction of a ciphered link.
//!
//! What is enciphered or deciphered is whole blocks, and each call goes on where
//! the one before it ended, so that a stream may be cut between any two blocks. A
//! [`Session`](crate::Session) uses both in their order; they are here for other
//! drivers.
//!
//! The cipher hides, it does not authenticate: a CRC is no MAC. And it looks up
//! tables by secret bytes, so that its time depends on them: it is not
//! constant-time. Both are in docs/DECISIONS.md.

use crate::keys::{clear, Keys};
use crate::{raw, Refusal};
use std::fmt;

/// The size of a block.
pub const BLOCK: usize = 16;

/// What a direction goes on with. It stands in one place from its making to its
/// clearing, so that moving its owner leaves no copy behind.
struct Chain {
    keys: raw::RoundKeys,
    vector: raw::Vector,
}

impl Chain {
    /// With the round keys that `expand` makes.
    fn new(
        derived: &Keys,
        expand: unsafe extern "C" fn(raw::CipherKey) -> raw::RoundKeys,
    ) -> Box<Chain> {
        let mut chain = Box::new(Chain {
            keys: raw::RoundKeys { bytes: [0; 240] },
            vector: raw::Vector { bytes: [0; BLOCK] },
        });
        chain.vector.bytes = derived.vector;
        let mut key = raw::CipherKey { bytes: derived.key };
        // SAFETY: all is passed by value.
        chain.keys = unsafe { expand(key) };
        clear(&mut key.bytes);
        chain
    }

    fn wipe(&mut self) {
        clear(&mut self.keys.bytes);
        clear(&mut self.vector.bytes);
    }
}

impl Drop for Chain {
    fn drop(&mut self) {
        self.wipe();
    }
}

/// What our packets go through. Round keys and vector are cleared when it is
/// dropped. It is not `Clone`: two that go on from one state would encipher
/// other bytes alike.
pub struct Encipher(Box<Chain>);

/// What the other side's packets go through, likewise.
pub struct Decipher(Box<Chain>);

impl Encipher {
    /// With the keys for what we send; the caller clears them.
    pub fn new(keys: &Keys) -> Encipher {
        Encipher(Chain::new(keys, raw::relay_encipher_keys))
    }

    /// Enciphers the bytes where they stand. Refused with 37 if they are not
    /// whole blocks; all is then as before.
    pub fn encipher(&mut self, bytes: &mut [u8]) -> Result<(), Refusal> {
        let Chain { keys, vector } = &mut *self.0;
        // SAFETY: the pointer and length are a slice's.
        let chained =
            unsafe { raw::relay_encipher(bytes.as_mut_ptr(), bytes.len(), *keys, *vector) };
        *vector = chained.vector;
        Refusal::unless(chained.refusal, ())
    }
}

impl Decipher {
    /// With the keys for what the other side sends; the caller clears them.
    pub fn new(keys: &Keys) -> Decipher {
        Decipher(Chain::new(keys, raw::relay_decipher_keys))
    }

    /// Deciphers the bytes where they stand. Refused with 37 if they are not
    /// whole blocks; all is then as before.
    pub fn decipher(&mut self, bytes: &mut [u8]) -> Result<(), Refusal> {
        let Chain { keys, vector } = &mut *self.0;
        // SAFETY: the pointer and length are a slice's.
        let chained =
            unsafe { raw::relay_decipher(bytes.as_mut_ptr(), bytes.len(), *keys, *vector) };
        *vector = chained.vector;
        Refusal::unless(chained.refusal, ())
    }
}

/// Without what it has.
impl fmt::Debug for Encipher {
    fn fmt(&self, f: &mut fmt::Formatter) -> fmt::Result {
        f.debug_struct("Encipher").finish_non_exhaustive()
    }
}

/// Without what it has.
impl fmt::Debug for Decipher {
    fn fmt(&self, f: &mut fmt::Formatter) -> fmt::Result {
        f.debug_struct("Decipher").finish_non_exhaustive()
    }
}

#[cfg(test)]
mod tests {
    use super::*;

    #[test]
    fn nothing_of_a_chain_is_left() {
        let keys = Keys {
            message: &mut [],
            key: [1; 32],
            vector: [2; BLOCK],
        };
        for expand in [raw::relay_encipher_keys, raw::relay_decipher_keys] {
            let mut chain = Chain::new(&keys, expand);
            assert_ne!(chain.keys.bytes, [0; 240]);
            assert_eq!(chain.vector.bytes, [2; BLOCK]);
            chain.wipe();
            assert_eq!(chain.keys.bytes, [0; 240]);
            assert_eq!(chain.vector.bytes, [0; BLOCK]);
        }
    }
}
