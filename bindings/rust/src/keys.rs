//! The keys of a link: what AES-256 in CBC mode needs for each direction, from
//! both Nonces and the link's key. The Diffie-Hellman exchange is the caller's,
//! and the cipher is in [`cipher`](crate::cipher). A [`Session`](crate::Session)
//! does all of this in its order; the parts are here for other drivers, whose
//! order of calls is in include/relay.h.
//!
//! No call keeps anything, and but for a [`Key`] nothing here is cleared when it is
//! dropped. The caller clears, when it is done with them, [the keys](Keys::clear),
//! and by [`clear`] the shared bytes of its derivation and its own copy of the
//! link's key. What the compiler leaves on the stack is not cleared.

use crate::{raw, Refusal, Side};
use std::fmt;

/// The length of a buffer that [`derive()`] never finds too short.
pub const INIT_MESSAGE_MOST: usize = 4214;

pub fn md5(bytes: &[u8]) -> [u8; 16] {
    // SAFETY: the pointer and length are a slice's.
    unsafe { raw::relay_md5(bytes.as_ptr(), bytes.len()) }.bytes
}

pub fn sha1(bytes: &[u8]) -> [u8; 20] {
    // SAFETY: the pointer and length are a slice's.
    unsafe { raw::relay_sha1(bytes.as_ptr(), bytes.len()) }.bytes
}

/// Makes every byte 0, even if none is read again.
pub fn clear(bytes: &mut [u8]) {
    // SAFETY: the pointer and length are a slice's.
    unsafe { raw::relay_clear(bytes.as_mut_ptr(), bytes.len()) }
}

/// A link's key, cleared when it is dropped.
///
/// It is neither `Clone` nor shown, since it is a secret.
pub struct Key(Vec<u8>);

impl Key {
    /// A copy; the caller clears its own.
    pub fn new(bytes: &[u8]) -> Key {
        Key(bytes.to_vec())
    }

    pub fn bytes(&self) -> &[u8] {
        &self.0
    }

    fn wipe(&mut self) {
        clear(&mut self.0);
    }
}

impl Drop for Key {
    fn drop(&mut self) {
        self.wipe();
    }
}

/// Without what it has.
impl fmt::Debug for Key {
    fn fmt(&self, f: &mut fmt::Formatter) -> fmt::Result {
        f.debug_struct("Key").finish_non_exhaustive()
    }
}

/// What a derivation needs of a Nonce.
#[derive(Clone, Copy, Debug, PartialEq, Eq)]
pub struct NonceFields<'a> {
    pub version: u8,
    pub time: u32,
    pub random: &'a [u8; 16],
    /// Not under version 2. Zeros of a link that neither offers nor takes the
    /// cipher.
    pub point: Option<&'a [u8; 32]>,
}

impl NonceFields<'_> {
    /// Those of a Nonce with this body; refused with 7 for one under 28 bytes,
    /// or under 60 with version 2 or more. Bytes past that are ignored.
    pub fn read(body: &[u8]) -> Result<NonceFields<'_>, Refusal> {
        // SAFETY: the pointer and length are a slice's.
        let fields = unsafe { raw::relay_read_nonce(body.as_ptr(), body.len()) };
        Refusal::unless(fields.refusal, ())?;
        Ok(NonceFields {
            version: fields.version,
            time: fields.time,
            random: part(body, fields.random),
            point: (fields.point.len != 0).then(|| part(body, fields.point)),
        })
    }
}

/// A part of so many bytes.
fn part<const N: usize>(bytes: &[u8], part: raw::Part) -> &[u8; N] {
    let part = &bytes[part.at..][..part.len];
    part.try_into().expect("a part has its field's size")
}

/// One end of a link.
#[repr(C)]
#[derive(Clone, Copy, Debug, Default, PartialEq, Eq)]
pub struct End {
    /// Of its Nonce.
    pub random: [u8; 16],
    /// Of its Nonce.
    pub time: u32,
    /// The address of its end of the connection: 1.2.3.4 is 0x01020304. Version
    /// 0 alone uses it, and the port.
    pub ip: u32,
    pub port: u16,
}

#[repr(C)]
#[derive(Clone, Copy, Debug, Default, PartialEq, Eq)]
pub struct Ends {
    pub client: End,
    pub server: End,
}

/// What keys are derived from, beside the link's key.
///
/// It is not `Clone`, since the shared bytes are a secret.
pub struct Derivation {
    /// 0, 1 or 2: that of the server's Nonce, which both speak.
    pub version: u8,
    /// Whose packets the keys are for.
    pub sender: Side,
    pub ends: Ends,
    /// The Diffie-Hellman secret; version 2 alone uses it.
    pub shared: [u8; 32],
}

impl Derivation {
    fn raw(&self) -> raw::Derivation {
        raw::Derivation {
            version: self.version,
            from_server: self.sender == Side::Server,
            ends: self.ends,
            shared: self.shared,
        }
    }
}

/// Without the shared bytes.
impl fmt::Debug for Derivation {
    fn fmt(&self, f: &mut fmt::Formatter) -> fmt::Result {
        f.debug_struct("Derivation")
            .field("version", &self.version)
            .field("sender", &self.sender)
            .field("ends", &self.ends)
            .finish_non_exhaustive()
    }
}

/// The keys of one direction, secrets all.
pub struct Keys<'b> {
    /// The init message, at the front of the buffer: the link's key and the
    /// shared bytes are in it.
    pub message: &'b mut [u8],
    /// For AES-256.
    pub key: [u8; 32],
    /// The starting vector.
    pub vector: [u8; 16],
}

impl Keys<'_> {
    /// Clears message, key and vector.
    pub fn clear(&mut self) {
        clear(self.message);
        clear(&mut self.key);
        clear(&mut self.vector);
    }
}

/// Without what it has.
impl fmt::Debug for Keys<'_> {
    fn fmt(&self, f: &mut fmt::Formatter) -> fmt::Result {
        f.debug_struct("Keys").finish_non_exhaustive()
    }
}

/// Writes the init message at the front of `buf`, where bytes past it stay, and
/// hands back what follows from it. It has 86 bytes and the key's, in version 2
/// 118 and the key's.
///
/// `key` may have any length up to 4,096, though a link's has 32 bytes at least.
/// Refused with 36 for a longer one, then 30 for a version above 2, then 16;
/// every byte is then as before.
pub fn derive<'b>(buf: &'b mut [u8], what: &Derivation, key: &[u8]) -> Result<Keys<'b>, Refusal> {
    let (start, room) = (buf.as_mut_ptr(), buf.len());
    // SAFETY: each pointer and length are a slice's; what is borrowed to be
    // written overlaps nothing.
    let mut derived =
        unsafe { raw::relay_derive(start, room, what.raw(), key.as_ptr(), key.len()) };
    let keys = Keys {
        message: &mut buf[..derived.size],
        key: derived.key,
        vector: derived.vector,
    };
    clear(&mut derived.key);
    clear(&mut derived.vector);
    Refusal::unless(derived.refusal, keys)
}

#[cfg(test)]
mod tests {
    use super::*;

    #[test]
    fn nothing_of_a_key_is_left() {
        let mut key = Key::new(&[1; 40]);
        assert_eq!(key.bytes(), [1; 40]);
        key.wipe();
        assert_eq!(key.bytes(), [0; 40]);
    }
}
