//! MD5 and SHA-1, in the order and with the names of their standards. Nothing
//! here is quick: it is the yardstick.

mod md5;
mod sha1;

pub use md5::md5;
pub use sha1::sha1;

/// Both work on blocks of so many bytes.
const BLOCK: usize = 64;

/// What both standards begin with: a bit 1, zeros up to 8 bytes before the end
/// of a block, and the message's length in bits, in the hash's own byte order.
fn padded(message: &[u8], length: [u8; 8]) -> Vec<u8> {
    let mut bytes = message.to_vec();
    bytes.push(0x80);
    while bytes.len() % BLOCK != BLOCK - length.len() {
        bytes.push(0);
    }
    bytes.extend(length);
    bytes
}

fn bits(message: &[u8]) -> u64 {
    message.len() as u64 * 8
}

#[cfg(test)]
mod tests {
    use super::*;

    /// Whole blocks, of which no more than the length needs; up to 55 bytes of
    /// a last block leave room for it there.
    #[test]
    fn padding_around_the_end_of_a_block() {
        for (n, blocks) in [
            (0, 1),
            (55, 1),
            (56, 2),
            (63, 2),
            (64, 2),
            (119, 2),
            (120, 3),
        ] {
            let message = vec![7; n];
            let bytes = padded(&message, [9; 8]);
            assert_eq!(bytes.len(), blocks * BLOCK);
            assert!(bytes.starts_with(&message));
            assert_eq!(bytes[n], 0x80);
            assert!(bytes[n + 1..bytes.len() - 8].iter().all(|byte| *byte == 0));
            assert!(bytes.ends_with(&[9; 8]));
        }
    }
}
