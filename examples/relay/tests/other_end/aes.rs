//! AES-256 in CBC mode at the other end: OpenSSL's, so that the two ends of a
//! ciphered link have nothing in common; or the library's own where the feature
//! openssl is not built in.

#[cfg(feature = "openssl")]
pub use openssl::Aes;
#[cfg(not(feature = "openssl"))]
pub use ours::Aes;

#[cfg(feature = "openssl")]
mod openssl {
    use std::ffi::{c_int, c_uchar, c_void};
    use std::ptr::null;

    // By the shared library's own name: its headers are not needed.
    #[link(name = "libcrypto.so.3", kind = "dylib", modifiers = "+verbatim")]
    extern "C" {
        fn EVP_CIPHER_CTX_new() -> *mut c_void;
        fn EVP_CIPHER_CTX_free(context: *mut c_void);
        fn EVP_CIPHER_CTX_set_padding(context: *mut c_void, padding: c_int) -> c_int;
        fn EVP_aes_256_cbc() -> *const c_void;
        fn EVP_CipherInit_ex(
            context: *mut c_void,
            cipher: *const c_void,
            engine: *const c_void,
            key: *const c_uchar,
            vector: *const c_uchar,
            encrypts: c_int,
        ) -> c_int;
        fn EVP_CipherUpdate(
            context: *mut c_void,
            out: *mut c_uchar,
            written: *mut c_int,
            bytes: *const c_uchar,
            n: c_int,
        ) -> c_int;
    }

    /// One direction; it goes on where the last call ended.
    pub struct Aes(*mut c_void);

    // SAFETY: a context belongs to no thread, and here it has one owner at a time.
    unsafe impl Send for Aes {}

    impl Aes {
        pub fn new(key: &[u8; 32], vector: &[u8; 16], enciphers: bool) -> Aes {
            let (key, vector) = (key.as_ptr(), vector.as_ptr());
            // SAFETY: key and vector have the cipher's sizes.
            unsafe {
                let context = EVP_CIPHER_CTX_new();
                assert!(!context.is_null());
                let cipher = EVP_aes_256_cbc();
                let encrypts = enciphers.into();
                let is_set = EVP_CipherInit_ex(context, cipher, null(), key, vector, encrypts);
                assert_eq!((is_set, EVP_CIPHER_CTX_set_padding(context, 0)), (1, 1));
                Aes(context)
            }
        }

        /// Whole blocks, in their place.
        pub fn apply(&mut self, bytes: &mut [u8]) {
            let place = bytes.as_mut_ptr();
            let n = c_int::try_from(bytes.len()).expect("no longer lump");
            let mut written = 0;
            // SAFETY: it writes as many bytes as it reads, of whole blocks.
            let is_done = unsafe { EVP_CipherUpdate(self.0, place, &mut written, place, n) };
            assert_eq!((is_done, written), (1, n));
        }
    }

    impl Drop for Aes {
        fn drop(&mut self) {
            // SAFETY: it is owned, and freed once.
            unsafe { EVP_CIPHER_CTX_free(self.0) }
        }
    }
}

#[cfg(not(feature = "openssl"))]
mod ours {
    use relay::cipher::{Decipher, Encipher};
    use relay::keys::Keys;

    /// One direction; it goes on where the last call ended.
    pub enum Aes {
        Encipher(Encipher),
        Decipher(Decipher),
    }

    impl Aes {
        pub fn new(key: &[u8; 32], vector: &[u8; 16], enciphers: bool) -> Aes {
            let keys = Keys {
                message: &mut [],
                key: *key,
                vector: *vector,
            };
            match enciphers {
                true => Aes::Encipher(Encipher::new(&keys)),
                false => Aes::Decipher(Decipher::new(&keys)),
            }
        }

        /// Whole blocks, in their place.
        pub fn apply(&mut self, bytes: &mut [u8]) {
            let done = match self {
                Aes::Encipher(encipher) => encipher.encipher(bytes),
                Aes::Decipher(decipher) => decipher.decipher(bytes),
            };
            done.expect("whole blocks");
        }
    }
}
