//! Md5Digest, Sha1Digest, NonceFields, End, Ends, Derivation, Derived.

use super::*;
use crate::keys::{End, Ends};

/// Every field has a value that no other has.
const ALL: Derivation = Derivation {
    version: 0,
    from_server: false,
    ends: Ends {
        client: End {
            random: *b"abcdefghijklmnop",
            time: 0x0102_0304,
            ip: 0x0506_0708,
            port: 0x090a,
        },
        server: End {
            random: *b"ABCDEFGHIJKLMNOP",
            time: 0x1314_1516,
            ip: 0x0d0e_0f10,
            port: 0x1112,
        },
    },
    shared: *b"0123456789!$%&/()=?+*#-_.:,;<>|~",
};

fn derived(buf: &mut [u8], what: Derivation, key: &[u8]) -> Derived {
    unsafe { relay_derive(buf.as_mut_ptr(), buf.len(), what, key.as_ptr(), key.len()) }
}

fn md5(bytes: &[u8]) -> [u8; 16] {
    unsafe { relay_md5(bytes.as_ptr(), bytes.len()) }.bytes
}

fn sha1(bytes: &[u8]) -> [u8; 20] {
    unsafe { relay_sha1(bytes.as_ptr(), bytes.len()) }.bytes
}

#[test]
fn digests_have_their_bytes_in_order() {
    let expected = 0x9001_5098_3cd2_4fb0_d696_3f7d_28e1_7f72_u128;
    assert_eq!(md5(b"abc"), expected.to_be_bytes());
    let digest = sha1(b"abc");
    let front = 0xa999_3e36_4706_816a_ba3e_2571_7850_c26c_u128;
    assert_eq!(digest[..16], front.to_be_bytes());
    assert_eq!(digest[16..], 0x9cd0_d89d_u32.to_be_bytes());
}

/// What a derivation writes, in each version and direction.
fn messages() -> [(u8, bool, Vec<u8>); 6] {
    let nonces = b"ABCDEFGHIJKLMNOPabcdefghijklmnop";
    let message = |from: &[u8], direction: &[u8], to: &[u8], behind: &[u8]| {
        let front = [nonces, &[4, 3, 2, 1][..], from, direction, to].concat();
        [&front, &b"key"[..], nonces, behind].concat()
    };
    let old_from = [0x10, 0x0f, 0x0e, 0x0d, 0x0a, 0x09];
    let old_to = [0x08, 0x07, 0x06, 0x05, 0x12, 0x11];
    let old = |direction| message(&old_from, direction, &old_to, b"");
    let new_from = [0x16, 0x15, 0x14, 0x13, 0, 0];
    let new = |direction, behind| message(&new_from, direction, &[0; 6], behind);
    [
        (0, false, old(b"CLIENT")),
        (0, true, old(b"SERVER")),
        (1, false, new(b"CLIENT", b"")),
        (1, true, new(b"SERVER", b"")),
        (2, false, new(b"CLIENT", &ALL.shared)),
        (2, true, new(b"SERVER", &ALL.shared)),
    ]
}

#[test]
fn a_derivation_takes_every_field_that_its_version_has() {
    for (version, server, message) in messages() {
        let what = Derivation {
            version,
            from_server: server,
            ..ALL
        };
        let size = message.len();
        let mut buf = [0xee; 200];
        let answer = derived(&mut buf, what, b"key");
        assert_eq!((answer.refusal, answer.size), (0, size));
        assert_eq!(buf[..size], message);
        assert_eq!(buf[size..], vec![0xee; 200 - size]);
        assert_eq!(answer.key[..12], md5(&message[1..])[..12]);
        assert_eq!(answer.key[12..], sha1(&message));
        assert_eq!(answer.vector, md5(&message[2..]));
    }
}

#[test]
fn a_refused_derivation_has_a_number_and_nothing_else() {
    let most = [1; 4097];
    for (version, key, room, refusal) in [
        (3, &most[..], 0, 36),
        (3, &most[..4096], 0, 30),
        (255, b"key", 200, 30),
        (2, b"key", 120, 16),
        (0, b"key", 88, 16),
    ] {
        let mut buf = vec![0xee; room];
        let answer = derived(&mut buf, Derivation { version, ..ALL }, key);
        assert_eq!((answer.refusal, answer.size), (refusal, 0));
        assert_eq!((answer.key, answer.vector), ([0; 32], [0; 16]));
        assert_eq!(buf, vec![0xee; room]);
    }
}

fn read(body: &[u8]) -> NonceFields {
    unsafe { relay_read_nonce(body.as_ptr(), body.len()) }
}

#[test]
fn every_field_of_a_nonce_and_of_a_refusal() {
    let none = Part { at: 0, len: 0 };
    for version in 0..=u8::MAX {
        let mut body = nonce(version, 0x0102_0304);
        body.extend([0xee; 4]);
        let fields = NonceFields {
            refusal: 0,
            version,
            time: 0x0102_0304,
            random: Part { at: 12, len: 16 },
            point: Part { at: 28, len: 32 },
        };
        let old = NonceFields {
            point: Part { at: 28, len: 0 },
            ..fields
        };
        let refused = NonceFields {
            refusal: 7,
            version: 0,
            time: 0,
            random: none,
            point: none,
        };
        for n in 0..=body.len() {
            let expected = match (n, version) {
                (..28, _) => refused,
                (_, ..2) => old,
                (..60, _) => refused,
                _ => fields,
            };
            assert_eq!(read(&body[..n]), expected, "{n} bytes, version {version}");
        }
    }
}

#[test]
fn clearing_goes_by_place_and_length() {
    let mut buf = [0xee; 100];
    unsafe { relay_clear(buf[7..].as_mut_ptr(), 50) };
    assert_eq!(buf[..7], [0xee; 7]);
    assert_eq!(buf[7..57], [0; 50]);
    assert_eq!(buf[57..], [0xee; 43]);
}
