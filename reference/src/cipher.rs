//! Document 02, A9: AES-256 in CBC mode, as FIPS 197 and NIST SP 800-38A write
//! it. Nothing is typed in but what the standards define the cipher by: the
//! field's polynomial, the affine step and the factors of a column.

mod block;
mod field;
pub mod printed;
mod schedule;
mod substitution;
#[cfg(test)]
mod tests;

use crate::refusal::Refusal;
use block::Block;

/// In bytes.
pub const BLOCK: usize = 16;
pub const KEY: usize = 32;

/// Enciphers `buffer` where it stands. Each block is added to the one before
/// it, as enciphered, the first to `vector`, which is the last of them
/// afterwards: the next call goes on where this one ended. 37 leaves both.
pub fn encipher(
    key: &[u8; KEY],
    vector: &mut [u8; BLOCK],
    buffer: &mut [u8],
) -> Result<(), Refusal> {
    let blocks = blocks(buffer)?;
    let keys = schedule::expand(key);
    for block in blocks {
        *vector = block::cipher(&keys, sum(block, vector));
        block.copy_from_slice(vector);
    }
    Ok(())
}

/// Undoes `encipher` under the same key and vector, and carries the vector
/// alike: it is the last block as it was before.
pub fn decipher(
    key: &[u8; KEY],
    vector: &mut [u8; BLOCK],
    buffer: &mut [u8],
) -> Result<(), Refusal> {
    let blocks = blocks(buffer)?;
    let keys = schedule::expand(key);
    for block in blocks {
        let ciphered: Block = sum(block, &[0; BLOCK]);
        block.copy_from_slice(&sum(&block::inverse_cipher(&keys, ciphered), vector));
        *vector = ciphered;
    }
    Ok(())
}

fn blocks(buffer: &mut [u8]) -> Result<std::slice::ChunksExactMut<'_, u8>, Refusal> {
    if !buffer.len().is_multiple_of(BLOCK) {
        return Err(Refusal::NotWholeBlocks);
    }
    Ok(buffer.chunks_exact_mut(BLOCK))
}

/// Bit by bit, modulo 2.
fn sum(one: &[u8], other: &Block) -> Block {
    std::array::from_fn(|i| one[i] ^ other[i])
}
