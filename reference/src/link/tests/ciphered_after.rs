//! Links that may go ciphered: how they are set up, and how they go on after
//! the Nonces.

use super::ciphered::{keyed_pair, set, CIPHERS, KEY, SIDES};
use super::*;

/// Flushes, zeros and words as on links padded by hand.
#[test]
fn a_ciphered_link_is_padded_from_the_handshake_on() {
    for (client, server) in [(1, 1), (1, 2), (2, 1), (2, 2)] {
        let mut pair = keyed_pair(CIPHERS[client], CIPHERS[server]).open();
        let mut buffer = [0; 12];
        assert_eq!(pair.client.flush(&mut buffer), Ok(4));
        let (packet, _) = pair.pass(Side::Client, invoke(b"12345"));
        assert_eq!(packet.len(), 32);
        assert_eq!(pair.client.flush(&mut buffer), Ok(0));
        assert_eq!(
            pair.server.flush(&mut buffer[..3]),
            Err(Refusal::BufferTooSmall)
        );
        assert_eq!(pair.server.flush(&mut buffer), Ok(4));
        let ping = sent(&mut pair.server, Outgoing::Ping(1));
        let bytes = [&[4, 0, 0, 0][..], &ping].concat();
        let taken = pair.client.receive(&bytes, TIME).unwrap();
        assert!(matches!(taken, Received::Packet { consumed: 28, .. }));
        let words = [4, 0, 0, 0].repeat(4);
        assert_eq!(pair.client.receive(&words, TIME), Err(Refusal::FourthWord));
        assert!(pair.client.state().ciphered);
    }
}

/// The same bytes and answers, but for the Nonces, with and without padding by
/// hand.
#[test]
fn padding_by_hand_makes_no_difference_on_a_ciphered_link() {
    let state_after = |padded| {
        let link = |side| {
            let settings = Settings {
                padded,
                ..set(side, Cipher::CipherOnly)
            };
            Link::set_up_with_key(settings, &KEY).unwrap()
        };
        let mut pair = Pair {
            client: link(Side::Client),
            server: link(Side::Server),
        }
        .open();
        let answers = [9, 10, 11, 12].map(|n| pair.pass(Side::Client, invoke(&vec![1; n])));
        (answers, pair.client.state().since_handshake)
    };
    assert_eq!(state_after(false), state_after(true));
}

#[test]
fn a_link_gone_clear_is_not_padded() {
    for (client, server) in [(2, 0), (0, 2)] {
        let mut pair = keyed_pair(CIPHERS[client], CIPHERS[server]).open();
        let (packet, _) = pair.pass(Side::Client, invoke(b"12345"));
        assert_eq!(packet.len(), 29);
        for mut link in [pair.client, pair.server] {
            assert_eq!(link.flush(&mut []), Ok(0));
            assert_eq!(
                link.receive(&[4, 0, 0, 0], TIME),
                Err(Refusal::LengthTooShort)
            );
        }
    }
}

#[test]
fn without_a_key_only_clear_links_are_set_up() {
    for side in SIDES {
        for cipher in CIPHERS {
            for lowest_version in 0..=4 {
                let settings = Settings {
                    lowest_version,
                    ..set(side, cipher)
                };
                let number = |link: Result<Link, Refusal>| link.err().map_or(0, Refusal::number);
                let range = if lowest_version > 2 { 30 } else { 0 };
                let without = if cipher == Cipher::ClearOnly {
                    range
                } else {
                    36
                };
                assert_eq!(number(Link::set_up(settings)), without);
                assert_eq!(number(Link::set_up_with_key(settings, &KEY)), range);
                assert_eq!(number(Link::set_up_with_key(settings, &KEY[1..])), 36);
                assert_eq!(number(Link::set_up_with_key(settings, &[0; 32])), 36);
            }
        }
    }
    let not_said = Link::new(Side::Client, true).state();
    assert_eq!(not_said.settings.cipher, Cipher::ClearOnly);
    assert!(!not_said.ciphered);
}

/// What both drivers do: encipher after a flush, decipher before a receive.
#[test]
fn a_conversation_under_the_cipher() {
    use crate::cipher::{decipher, encipher};
    let mut pair = keyed_pair(Cipher::Either, Cipher::Either);
    pair.pass(Side::Client, NONCE_OUT);
    pair.pass(Side::Server, NONCE_OUT);
    let key = [9; 32];
    let mut vectors = ([1; 16], [1; 16]);
    let mut buffer = [0; 200];
    let mut size = pair.client.send(&HANDSHAKE_OUT, &mut buffer).unwrap();
    size += pair.client.flush(&mut buffer[size..]).unwrap();
    encipher(&key, &mut vectors.0, &mut buffer[..size]).unwrap();
    assert!(pair.server.clone().receive(&buffer[..size], TIME).is_err());
    decipher(&key, &mut vectors.1, &mut buffer[..size]).unwrap();
    assert_eq!(vectors.0, vectors.1);
    let taken = pair.server.receive(&buffer[..size], TIME).unwrap();
    assert!(matches!(taken, Received::Packet { consumed: 44, .. }));
    assert_eq!(buffer[44..size], [4, 0, 0, 0]);
}
