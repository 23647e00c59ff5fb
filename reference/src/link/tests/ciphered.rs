//! Links that may go ciphered: what the Nonces say.

use super::*;

pub const SIDES: [Side; 2] = [Side::Client, Side::Server];
pub const CIPHERS: [Cipher; 3] = [Cipher::ClearOnly, Cipher::CipherOnly, Cipher::Either];
pub const KEY: [u8; 32] = [5; 32];
const KEY_ID: [u8; 4] = [5; 4];

pub fn set(side: Side, cipher: Cipher) -> Settings {
    Settings {
        cipher,
        ..Settings::new(side, true)
    }
}

pub fn keyed(side: Side, cipher: Cipher) -> Link {
    Link::set_up_with_key(set(side, cipher), &KEY).unwrap()
}

pub fn keyed_pair(client: Cipher, server: Cipher) -> Pair {
    Pair {
        client: keyed(Side::Client, client),
        server: keyed(Side::Server, server),
    }
}

/// A link that awaits the other's Nonce.
fn awaiting_nonce(side: Side, cipher: Cipher) -> Link {
    let mut link = keyed(side, cipher);
    if side == Side::Client {
        sent(&mut link, NONCE_OUT);
    }
    link
}

fn their_nonce(encryption: u8, version: u8, time: u32, key_id: [u8; 4]) -> Vec<u8> {
    let mut body = nonce_body(version, time, [0; 16]);
    body[..4].copy_from_slice(&key_id);
    body[4] = encryption;
    packet::whole(packet::FIRST_NUMBER, NONCE, &body, CRC32)
}

/// The refusal's number, or whether the cipher is chosen. What is refused
/// closes the link and changes nothing else of it.
fn judged(mut link: Link, packet: &[u8]) -> Result<bool, u8> {
    let before = link.state();
    assert!(!before.ciphered);
    match link.receive(packet, TIME) {
        Ok(_) => Ok(link.state().ciphered),
        Err(refusal) => {
            let closed = State {
                closed: true,
                ..before
            };
            assert_eq!(link.state(), closed);
            Err(refusal.number())
        }
    }
}

/// By the bytes 0, 1, 2, 3 and 255.
#[test]
fn what_each_setting_makes_of_each_byte() {
    let (clear, cipher, no) = (Ok(false), Ok(true), Err(9));
    let expected = [
        (
            Side::Server,
            Cipher::ClearOnly,
            [clear, no, clear, clear, clear],
        ),
        (
            Side::Server,
            Cipher::CipherOnly,
            [no, cipher, cipher, cipher, cipher],
        ),
        (
            Side::Server,
            Cipher::Either,
            [clear, cipher, cipher, cipher, cipher],
        ),
        (Side::Client, Cipher::ClearOnly, [clear, no, no, no, no]),
        (Side::Client, Cipher::CipherOnly, [no, cipher, no, no, no]),
        (Side::Client, Cipher::Either, [clear, cipher, no, no, no]),
    ];
    for (side, setting, answers) in expected {
        let answer = |encryption| {
            let packet = their_nonce(encryption, 2, TIME, KEY_ID);
            judged(awaiting_nonce(side, setting), &packet)
        };
        assert_eq!(
            [0, 1, 2, 3, 255].map(answer),
            answers,
            "{side:?} {setting:?}"
        );
    }
}

#[test]
fn a_key_id_is_heeded_where_the_cipher_is_chosen() {
    for side in SIDES {
        for setting in CIPHERS {
            for encryption in 0..=255 {
                let of = |key_id| {
                    let packet = their_nonce(encryption, 2, TIME, key_id);
                    judged(awaiting_nonce(side, setting), &packet)
                };
                let same = of(KEY_ID);
                for other in [[0; 4], [5, 5, 5, 4], [4, 5, 5, 5]] {
                    let expected = if same == Ok(true) { Err(9) } else { same };
                    assert_eq!(of(other), expected);
                }
            }
        }
    }
}

/// 7, 8 and 24 come before 9, whatever its cause, and 10 behind it.
#[test]
fn the_place_of_9_in_the_order() {
    let order = |cipher, encryption, version, time, key_id| {
        let settings = Settings {
            lowest_version: 1,
            ..set(Side::Client, cipher)
        };
        let mut link = Link::set_up_with_key(settings, &KEY).unwrap();
        sent(&mut link, NONCE_OUT);
        judged(link, &their_nonce(encryption, version, time, key_id))
    };
    for (encryption, key_id) in [(0, KEY_ID), (2, KEY_ID), (1, [0; 4])] {
        let cipher = Cipher::CipherOnly;
        assert_eq!(order(cipher, encryption, 0, TIME + 31, key_id), Err(8));
        assert_eq!(order(cipher, encryption, 0, TIME, key_id), Err(24));
        assert_eq!(order(cipher, encryption, 1, TIME, key_id), Err(9));
        assert_eq!(order(cipher, encryption, 3, TIME, key_id), Err(9));
        assert_eq!(order(cipher, 1, 3, TIME, KEY_ID), Err(10));
    }
    assert_eq!(order(Cipher::Either, 0, 3, TIME, [0; 4]), Err(10));
    assert_eq!(order(Cipher::Either, 1, 3, TIME, [0; 4]), Err(9));
}

/// Byte Encryption, KeyID and point of what a link writes.
fn written(link: &mut Link) -> (u8, [u8; 4], [u8; 32]) {
    let packet = sent(link, NONCE_OUT);
    assert_eq!(packet.len(), 76);
    let (key_id, point) = (&packet[12..16], &packet[40..72]);
    (
        packet[16],
        key_id.try_into().unwrap(),
        point.try_into().unwrap(),
    )
}

#[test]
fn what_a_client_offers() {
    for (cipher, expected) in [
        (Cipher::ClearOnly, (0, [0; 4], [0; 32])),
        (Cipher::CipherOnly, (1, KEY_ID, [8; 32])),
        (Cipher::Either, (2, KEY_ID, [8; 32])),
    ] {
        assert_eq!(written(&mut keyed(Side::Client, cipher)), expected);
    }
}

/// Whatever the version: a point that has no meaning in it is written too.
#[test]
fn what_a_server_answers() {
    let (clear, cipher) = ((0, [0; 4], [0; 32]), (1, KEY_ID, [8; 32]));
    for (setting, encryption, expected) in [
        (Cipher::ClearOnly, 0, clear),
        (Cipher::ClearOnly, 2, clear),
        (Cipher::CipherOnly, 1, cipher),
        (Cipher::CipherOnly, 2, cipher),
        (Cipher::Either, 0, clear),
        (Cipher::Either, 1, cipher),
        (Cipher::Either, 255, cipher),
    ] {
        for version in 0..=3 {
            let mut server = keyed(Side::Server, setting);
            let packet = their_nonce(encryption, version, TIME, KEY_ID);
            server.receive(&packet, TIME).unwrap();
            assert_eq!(written(&mut server), expected);
        }
    }
}

#[test]
fn nine_pairs() {
    let (clear, cipher, no) = (Some(false), Some(true), None);
    let expected = [
        [clear, no, clear],
        [no, cipher, cipher],
        [clear, cipher, cipher],
    ];
    for (client, row) in CIPHERS.into_iter().zip(expected) {
        for (server, chosen) in CIPHERS.into_iter().zip(row) {
            let mut pair = keyed_pair(client, server);
            let nonce = sent(&mut pair.client, NONCE_OUT);
            let taken = pair.server.receive(&nonce, TIME).is_ok();
            assert_eq!(taken, chosen.is_some());
            if let Some(chosen) = chosen {
                assert!(!pair.client.state().ciphered);
                assert_eq!(pair.server.state().ciphered, chosen);
                pair.pass(Side::Server, NONCE_OUT);
                assert_eq!(pair.client.state().ciphered, chosen);
            }
        }
    }
}
