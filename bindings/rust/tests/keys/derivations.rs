//! Derivations part by part, with keys of many lengths.

use crate::parts::{all, derivation, message};
use crate::{bytes, pattern};
use relay::keys::{derive, md5, sha1, Derivation, INIT_MESSAGE_MOST};
use relay::Side;

#[test]
fn keys_of_many_lengths() {
    for what in all() {
        let constant = if what.version == 2 { 118 } else { 86 };
        for n in [0, 1, 3, 4, 31, 32, 63, 64, 1000, 4095, 4096] {
            let key = pattern(n);
            let message = message(&what, &key);
            assert_eq!(message.len(), constant + n);
            let mut buf = vec![0xee; INIT_MESSAGE_MOST + 1];
            let keys = derive(&mut buf, &what, &key).unwrap();
            assert_eq!(*keys.message, message);
            assert_eq!(keys.key[..12], md5(&message[1..])[..12]);
            assert_eq!(keys.key[12..], sha1(&message));
            assert_eq!(keys.vector, md5(&message[2..]));
            assert!(buf[message.len()..].iter().all(|&byte| byte == 0xee));
        }
    }
}

/// OpenSSL's digests over the same messages.
#[test]
fn the_longest_messages() {
    let sides = [
        (
            Side::Client,
            "01af5dfe475e7a71a806beea",
            "234f4165e3d45d400241ca3122c5e1a146dcee4b",
            "860486d82bfa25eab90d10ceb373d3e2",
        ),
        (
            Side::Server,
            "b719c8b0823dd01f19e54b69",
            "272e2d640b95d544191987c8b9e8cf0be1e6ebcf",
            "338f2b8037740eb7a6ca354ab5e69bd2",
        ),
    ];
    for (sender, front, rest, vector) in sides {
        let what = derivation(2, sender);
        let mut buf = [0; INIT_MESSAGE_MOST];
        let keys = derive(&mut buf, &what, &pattern(4096)).unwrap();
        assert_eq!(keys.message.len(), INIT_MESSAGE_MOST);
        assert_eq!(keys.key[..12], bytes(front));
        assert_eq!(keys.key[12..], bytes(rest));
        assert_eq!(keys.vector[..], bytes(vector));
    }
}

#[test]
fn a_version_ignores_what_it_does_not_have() {
    let message = |what: &Derivation| {
        let mut buf = [0; 200];
        derive(&mut buf, what, b"key").unwrap().message.to_vec()
    };
    for what in all() {
        let mut other = derivation(what.version, what.sender);
        if what.version < 2 {
            other.shared = [0xaa; 32];
        }
        if what.version == 0 {
            other.ends.server.time = 0;
        } else {
            (other.ends.client.ip, other.ends.client.port) = (0, 0);
            (other.ends.server.ip, other.ends.server.port) = (0, 0);
        }
        assert_eq!(message(&other), message(&what), "{what:?}");
    }
}
