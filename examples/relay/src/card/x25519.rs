//! X25519 by OpenSSL's libcrypto, which makes the key pair, draws its random bytes
//! and clears the private part when it is freed.

use relay::Card;
use std::ffi::{c_int, c_uchar, c_void};
use std::io;
use std::ptr::{null, null_mut};

/// EVP_PKEY_X25519 of its header.
const X25519: c_int = 1034;

// By the shared library's own name: its headers are not needed.
#[link(name = "libcrypto.so.3", kind = "dylib", modifiers = "+verbatim")]
extern "C" {
    fn EVP_PKEY_CTX_new_id(id: c_int, engine: *const c_void) -> *mut c_void;
    fn EVP_PKEY_CTX_new(key: *mut c_void, engine: *const c_void) -> *mut c_void;
    fn EVP_PKEY_CTX_free(context: *mut c_void);
    fn EVP_PKEY_keygen_init(context: *mut c_void) -> c_int;
    fn EVP_PKEY_keygen(context: *mut c_void, key: *mut *mut c_void) -> c_int;
    fn EVP_PKEY_get_raw_public_key(key: *mut c_void, out: *mut c_uchar, n: *mut usize) -> c_int;
    fn EVP_PKEY_new_raw_public_key(
        id: c_int,
        engine: *const c_void,
        bytes: *const c_uchar,
        n: usize,
    ) -> *mut c_void;
    fn EVP_PKEY_free(key: *mut c_void);
    fn EVP_PKEY_derive_init(context: *mut c_void) -> c_int;
    fn EVP_PKEY_derive_set_peer(context: *mut c_void, peer: *mut c_void) -> c_int;
    fn EVP_PKEY_derive(context: *mut c_void, out: *mut c_uchar, n: *mut usize) -> c_int;
}

/// A key or a context, freed when it is dropped; never null.
struct Owned(*mut c_void, unsafe extern "C" fn(*mut c_void));

impl Owned {
    fn new(pointer: *mut c_void, free: unsafe extern "C" fn(*mut c_void)) -> Option<Owned> {
        (!pointer.is_null()).then_some(Owned(pointer, free))
    }
}

impl Drop for Owned {
    fn drop(&mut self) {
        // SAFETY: it is owned, and freed once.
        unsafe { (self.1)(self.0) }
    }
}

/// A key pair for one connection.
pub struct X25519Card {
    key: Owned,
    point: [u8; 32],
}

// SAFETY: a key belongs to no thread, and here it has one owner at a time.
unsafe impl Send for X25519Card {}

impl X25519Card {
    pub fn new() -> io::Result<X25519Card> {
        made().ok_or_else(|| io::Error::other("OpenSSL makes no key pair"))
    }
}

fn made() -> Option<X25519Card> {
    // SAFETY: what is made is checked and owned at once, and each call gets what
    // its manual page asks for; `point` has the 32 bytes that `n` says.
    unsafe {
        let context = Owned::new(EVP_PKEY_CTX_new_id(X25519, null()), EVP_PKEY_CTX_free)?;
        let mut key = null_mut();
        let is_made =
            EVP_PKEY_keygen_init(context.0) == 1 && EVP_PKEY_keygen(context.0, &mut key) == 1;
        let key = Owned::new(key, EVP_PKEY_free).filter(|_| is_made)?;
        let (mut point, mut n) = ([0; 32], 32);
        let is_read = EVP_PKEY_get_raw_public_key(key.0, point.as_mut_ptr(), &mut n) == 1;
        (is_read && n == 32).then_some(X25519Card { key, point })
    }
}

impl Card for X25519Card {
    fn point(&mut self) -> [u8; 32] {
        self.point
    }

    /// None for a point of low order, whose shared bytes are zeros whatever our
    /// key: OpenSSL refuses it, as RFC 7748 allows.
    fn shared(&mut self, theirs: &[u8; 32]) -> Option<[u8; 32]> {
        // SAFETY: as above; `shared` has the 32 bytes that `n` says.
        unsafe {
            let peer = EVP_PKEY_new_raw_public_key(X25519, null(), theirs.as_ptr(), theirs.len());
            let peer = Owned::new(peer, EVP_PKEY_free)?;
            let context = Owned::new(EVP_PKEY_CTX_new(self.key.0, null()), EVP_PKEY_CTX_free)?;
            let (mut shared, mut n) = ([0; 32], 32);
            let is_derived = EVP_PKEY_derive_init(context.0) == 1
                && EVP_PKEY_derive_set_peer(context.0, peer.0) == 1
                && EVP_PKEY_derive(context.0, shared.as_mut_ptr(), &mut n) == 1;
            (is_derived && n == 32).then_some(shared)
        }
    }
}

#[cfg(test)]
mod tests {
    use super::*;

    #[test]
    fn both_ends_share_the_same_bytes_and_no_pair_is_used_twice() {
        let [mut one, mut other] = [(); 2].map(|()| X25519Card::new().unwrap());
        assert_ne!(one.point(), other.point());
        let shared = one.shared(&other.point());
        assert_eq!(shared, other.shared(&one.point()));
        assert_ne!(shared, Some([0; 32]));
        let mut third = X25519Card::new().unwrap();
        assert_ne!(third.shared(&one.point()), shared);
    }

    #[test]
    fn a_point_that_shares_nothing_is_refused() {
        let mut one_byte = [0; 32];
        one_byte[0] = 1;
        for point in [[0; 32], one_byte] {
            assert_eq!(X25519Card::new().unwrap().shared(&point), None);
        }
    }
}
