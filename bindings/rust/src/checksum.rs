//! CRC-32 and CRC-32C.

use crate::raw;

pub fn crc32(bytes: &[u8]) -> u32 {
    // SAFETY: the pointer and length are a slice's.
    unsafe { raw::relay_crc32(bytes.as_ptr(), bytes.len()) }
}

pub fn crc32c(bytes: &[u8]) -> u32 {
    // SAFETY: the pointer and length are a slice's.
    unsafe { raw::relay_crc32c(bytes.as_ptr(), bytes.len()) }
}

/// CRC-32 of some bytes followed by `bytes`, where `previous` is that of those.
pub fn crc32_update(previous: u32, bytes: &[u8]) -> u32 {
    // SAFETY: the pointer and length are a slice's.
    unsafe { raw::relay_crc32_update(previous, bytes.as_ptr(), bytes.len()) }
}

/// CRC-32C of some bytes followed by `bytes`, where `previous` is that of those.
pub fn crc32c_update(previous: u32, bytes: &[u8]) -> u32 {
    // SAFETY: the pointer and length are a slice's.
    unsafe { raw::relay_crc32c_update(previous, bytes.as_ptr(), bytes.len()) }
}
