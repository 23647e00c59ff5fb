//! Published digests, and lengths around a block's.

use crate::{bytes, pattern};
use relay::keys::{md5, sha1};

/// RFC 1321's test suite, its last text apart.
const MD5: [(&str, &str); 6] = [
    ("", "d41d8cd98f00b204e9800998ecf8427e"),
    ("a", "0cc175b9c0f1b6a831c399e269772661"),
    ("abc", "900150983cd24fb0d6963f7d28e17f72"),
    ("message digest", "f96b697d7cb7938d525a2f31aaf161d0"),
    (
        "abcdefghijklmnopqrstuvwxyz",
        "c3fcd3d76192e4007dfb496cca67e13b",
    ),
    (
        "ABCDEFGHIJKLMNOPQRSTUVWXYZabcdefghijklmnopqrstuvwxyz0123456789",
        "d174ab98d277d9f5a5611c2c9f419d9f",
    ),
];

/// NIST's examples of 24, 448 and 896 bits.
const SHA1: [(&str, &str); 3] = [
    ("abc", "a9993e364706816aba3e25717850c26c9cd0d89d"),
    (
        "abcdbcdecdefdefgefghfghighijhijkijkljklmklmnlmnomnopnopq",
        "84983e441c3bd26ebaae4aa1f95129e5e54670f1",
    ),
    (
        "abcdefghbcdefghicdefghijdefghijkefghijklfghijklmghijklmn\
         hijklmnoijklmnopjklmnopqklmnopqrlmnopqrsmnopqrstnopqrstu",
        "a49b2446a02c645bf419f995b67091253a04a259",
    ),
];

#[test]
fn the_test_suite_of_rfc_1321() {
    for (text, digest) in MD5 {
        assert_eq!(md5(text.as_bytes())[..], bytes(digest), "{text}");
    }
    let digest = bytes("57edf4a22be3c955ac49da2e2107b67a");
    assert_eq!(md5("1234567890".repeat(8).as_bytes())[..], digest);
}

#[test]
fn the_examples_of_nist() {
    for (text, digest) in SHA1 {
        assert_eq!(sha1(text.as_bytes())[..], bytes(digest), "{text}");
    }
}

#[test]
fn a_million_letters() {
    let text = vec![b'a'; 1_000_000];
    let digest = bytes("34aa973cd4c4daa4f61eeb2bdbad27316534016f");
    assert_eq!(sha1(&text)[..], digest);
    assert_eq!(md5(&text)[..], bytes("7707d6ae4e027c70eea2a935c2296f21"));
}

/// All lengths up to three blocks and more, in one digest over their digests;
/// OpenSSL has the same.
#[test]
fn every_length_up_to_200_bytes() {
    let text = pattern(200);
    let md5s: Vec<u8> = (0..=200).flat_map(|n| md5(&text[..n])).collect();
    assert_eq!(md5(&md5s)[..], bytes("3c2e2f5ba85a139b95d47a02f96f81c1"));
    let sha1s: Vec<u8> = (0..=200).flat_map(|n| sha1(&text[..n])).collect();
    let digest = bytes("02d79069dc73ad0af03448abfaffbb710334f1e9");
    assert_eq!(sha1(&sha1s)[..], digest);
}
