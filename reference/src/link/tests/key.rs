//! Links that are set up with a key.

use super::*;

fn every_setting() -> Vec<Settings> {
    let mut all = Vec::new();
    for side in [Side::Client, Side::Server] {
        for crc32c_allowed in [false, true] {
            for lowest_version in 0..=3 {
                for padded in [false, true] {
                    all.push(Settings {
                        side,
                        crc32c_allowed,
                        lowest_version,
                        padded,
                        cipher: Cipher::ClearOnly,
                    });
                }
            }
        }
    }
    all
}

fn number(settings: Settings, key: &[u8]) -> u8 {
    let link = Link::set_up_with_key(settings, key);
    link.err().map_or(0, Refusal::number)
}

/// The same link as without the key, but for the KeyID.
#[test]
fn a_link_keeps_the_first_four_bytes() {
    let key: Vec<u8> = (1..=40).collect();
    for settings in every_setting() {
        let without = Link::set_up(settings).map(|link| link.state());
        let with = Link::set_up_with_key(settings, &key).map(|link| link.state());
        let expected = without.map(|state| {
            assert_eq!(state.key_id, [0; 4]);
            let key_id = [1, 2, 3, 4];
            State { key_id, ..state }
        });
        assert_eq!(with, expected);
    }
    let not_said = Link::new(Side::Client, true).state();
    assert_eq!(not_said.key_id, [0; 4]);
}

#[test]
fn lengths_of_a_key() {
    for settings in every_setting() {
        let taken = if settings.lowest_version > 2 { 30 } else { 0 };
        for length in [0, 1, 3, 4, 31, 4097, 5000] {
            assert_eq!(number(settings, &vec![1; length]), 36);
        }
        for length in [32, 33, 4095, 4096] {
            assert_eq!(number(settings, &vec![1; length]), taken);
        }
    }
}

#[test]
fn four_zeros_in_front_are_36() {
    let settings = Settings::new(Side::Server, false);
    let mut key = [1; 32];
    key[..4].fill(0);
    assert_eq!(number(settings, &key), 36);
    assert_eq!(number(settings, &[0; 32]), 36);
    for place in 0..4 {
        let mut key = [0; 32];
        key[place] = 1;
        let link = Link::set_up_with_key(settings, &key).unwrap();
        assert_eq!(link.state().key_id, key[..4]);
    }
}

/// Nothing that a link set to clear only writes or reads comes from the key.
#[test]
fn a_key_changes_no_packet() {
    let with_key = |side, key| {
        let settings = Settings::new(side, true);
        Link::set_up_with_key(settings, &[key; 32]).unwrap()
    };
    let mut keyed = Pair {
        client: with_key(Side::Client, 1),
        server: with_key(Side::Server, 2),
    };
    let mut plain = Pair::new(true, true);
    for outgoing in [NONCE_OUT, HANDSHAKE_OUT] {
        for sender in [Side::Client, Side::Server] {
            assert_eq!(keyed.pass(sender, outgoing), plain.pass(sender, outgoing));
        }
    }
    let answers = (keyed.client.state(), plain.client.state());
    assert_eq!(answers.0.key_id, [1; 4]);
    let key_id = answers.1.key_id;
    assert_eq!(
        State {
            key_id,
            ..answers.0
        },
        answers.1
    );
}
