//! OpenSSL's AES-256 in CBC mode, by its EVP calls and without its padding.

use std::ffi::c_void;
use std::ptr::{null, null_mut};

extern "C" {
    fn EVP_CIPHER_CTX_new() -> *mut c_void;
    fn EVP_CIPHER_CTX_free(context: *mut c_void);
    fn EVP_CIPHER_CTX_set_padding(context: *mut c_void, pad: i32) -> i32;
    fn EVP_aes_256_cbc() -> *const c_void;
    fn EVP_CipherInit_ex(
        context: *mut c_void,
        cipher: *const c_void,
        engine: *mut c_void,
        key: *const u8,
        vector: *const u8,
        enciphers: i32,
    ) -> i32;
    fn EVP_CipherUpdate(
        context: *mut c_void,
        out: *mut u8,
        size: &mut i32,
        bytes: *const u8,
        length: i32,
    ) -> i32;
}

/// One direction; the vector goes on from call to call, as ours does.
pub struct Evp(*mut c_void);

impl Evp {
    pub fn new(enciphers: bool, key: &[u8; 32], vector: &[u8; 16]) -> Evp {
        let context = unsafe { EVP_CIPHER_CTX_new() };
        let (key, vector, way) = (key.as_ptr(), vector.as_ptr(), i32::from(enciphers));
        let set = unsafe {
            let cipher = EVP_aes_256_cbc();
            EVP_CipherInit_ex(context, cipher, null_mut(), key, vector, way)
                & EVP_CIPHER_CTX_set_padding(context, 0)
        };
        assert_eq!(set, 1);
        Evp(context)
    }

    /// Where the bytes stand.
    pub fn go_on(&mut self, bytes: &mut [u8]) {
        let (start, length) = (bytes.as_mut_ptr(), bytes.len() as i32);
        let mut size = 0;
        let done = unsafe { EVP_CipherUpdate(self.0, start, &mut size, start, length) };
        assert!(done == 1 && size == length);
    }

    /// Makes the round keys of another key.
    pub fn set_key(&mut self, key: &[u8; 32]) {
        let set =
            unsafe { EVP_CipherInit_ex(self.0, null(), null_mut(), key.as_ptr(), null(), -1) };
        assert_eq!(set, 1);
    }
}

impl Drop for Evp {
    fn drop(&mut self) {
        unsafe { EVP_CIPHER_CTX_free(self.0) };
    }
}
