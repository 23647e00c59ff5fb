//! Settings, SetUp.

use super::*;
use crate::packet_type::NONCE;

const TIME: u32 = 1000;
/// Whether the link is a server's.
const SIDES: [bool; 2] = [false, true];
/// As short as a link's may be.
const KEY: [u8; 32] = {
    let mut key = [0xee; 32];
    (key[0], key[1], key[2], key[3]) = (0x11, 0x22, 0x33, 0x44);
    key
};

/// All the settings that are not refused.
fn all_settings() -> impl Iterator<Item = Settings> {
    (0..24).map(|n| Settings {
        server: n & 1 != 0,
        allows: n & 2 != 0,
        padded: n & 4 != 0,
        lowest: n / 8,
        ..settings(false, false)
    })
}

#[test]
fn a_fresh_link_keeps_its_settings() {
    for set in all_settings() {
        let link = Link {
            set,
            closed: false,
            crc32c: false,
            version: 0,
            stage: 0,
            phase: 0,
            awaits: false,
            owes: false,
            ciphered: false,
            keyid: 0,
            sends: FIRST_PACKET,
            gets: FIRST_PACKET,
            awaited: 0,
            owed: 0,
        };
        assert_eq!(set_up(set), SetUp { refusal: 0, link });
        let link = Link {
            keyid: 0x4433_2211,
            ..link
        };
        assert_eq!(set_up_with_key(set, &KEY), SetUp { refusal: 0, link });
    }
}

#[test]
fn a_lowest_version_above_2_is_refused_with_a_closed_link() {
    let closed = Link {
        closed: true,
        sends: 0,
        gets: 0,
        ..link(false, false)
    };
    for server in SIDES {
        for lowest in [3, 255] {
            let set = Settings {
                lowest,
                padded: true,
                ..settings(server, true)
            };
            assert_eq!(set_up_with_key(set, &KEY), set_up(set));
            let unsuitable = set_up_with_key(set, &KEY[1..]);
            assert_eq!((unsuitable.refusal, unsuitable.link), (36, closed));
            let mut answer = set_up(set);
            assert_eq!((answer.refusal, answer.link), (30, closed));
            let bytes = packet(FIRST_PACKET, NONCE, &nonce(2, TIME));
            assert_eq!(receive(&mut answer.link, &bytes, TIME).refusal, 20);
            let outgoing = Outgoing {
                kind: NONCE,
                ..Outgoing::default()
            };
            let sent = send(&mut answer.link, &mut [0; 100], b"", outgoing);
            assert_eq!(sent.refusal, 20);
            assert_eq!(flush(&mut answer.link, &mut [0; 12]).refusal, 20);
            assert_eq!(answer.link, closed);
        }
    }
}

/// The refusal of a Nonce with this body, and whether the link is closed then.
fn refusal(server: bool, lowest: u8, body: &[u8]) -> (u8, bool) {
    let set = Settings {
        lowest,
        ..settings(server, false)
    };
    let mut link = Link {
        // A client has sent its own Nonce before.
        stage: u8::from(!server),
        ..set_up(set).link
    };
    let arrival = receive(&mut link, &packet(FIRST_PACKET, NONCE, body), TIME);
    assert_eq!(link.set, set);
    (arrival.refusal, link.closed)
}

#[test]
fn a_nonce_below_the_lowest_version_closes_the_link() {
    for server in SIDES {
        for lowest in 0..=2 {
            for version in 0..=2 {
                let expected = if version < lowest {
                    (24, true)
                } else {
                    (0, false)
                };
                let answer = refusal(server, lowest, &nonce(version, TIME));
                assert_eq!(answer, expected, "version {version} at {lowest}");
            }
        }
    }
}

#[test]
fn an_old_version_comes_after_the_clocks_and_before_the_encryption() {
    for server in SIDES {
        assert_eq!(refusal(server, 2, &nonce(1, TIME + 31)), (8, true));
        let mut encrypted = nonce(1, TIME);
        encrypted[4] = 1;
        assert_eq!(refusal(server, 2, &encrypted), (24, true));
        assert_eq!(refusal(server, 1, &encrypted), (9, true));
    }
}
