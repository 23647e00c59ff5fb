//! OpenSSL's MD5 and SHA-1.

/// Its SHA_CTX has 96 bytes, aligned as numbers of 32 bits.
type ShaContext = [u32; 24];

extern "C" {
    fn MD5(bytes: *const u8, length: usize, digest: *mut u8) -> *mut u8;
    fn SHA1_Init(context: &mut ShaContext) -> i32;
    fn SHA1_Update(context: &mut ShaContext, bytes: *const u8, length: usize) -> i32;
    fn SHA1_Final(digest: *mut u8, context: &mut ShaContext) -> i32;
}

pub fn md5(bytes: &[u8], digest: &mut [u8]) {
    assert!(digest.len() >= 16);
    unsafe { MD5(bytes.as_ptr(), bytes.len(), digest.as_mut_ptr()) };
}

/// In three calls: the one call SHA1 also looks for the algorithm by its name, which takes longer
/// than a short message.
pub fn sha1(bytes: &[u8], digest: &mut [u8]) {
    assert!(digest.len() >= 20);
    let mut context = [0; 24];
    unsafe {
        SHA1_Init(&mut context);
        SHA1_Update(&mut context, bytes.as_ptr(), bytes.len());
        SHA1_Final(digest.as_mut_ptr(), &mut context);
    }
}
