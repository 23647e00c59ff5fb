//! What the card is asked for, and what becomes of a session whose card gives no
//! shared bytes.

use crate::by_hand::ByHand;
use crate::pair::{self, HANDSHAKE};
use crate::settings::talk;
use crate::{KEY, NOW, SIDES};
use relay::{Card, Cipher, Fault, Refusal, Session, Settings, Side, ToSend};
use std::panic::{catch_unwind, AssertUnwindSafe};

const NONCE: ToSend = ToSend::Nonce { random: [7; 16] };

/// A card that finds every point bad.
struct Refusing;

impl Card for Refusing {
    fn point(&mut self) -> [u8; 32] {
        [1; 32]
    }

    fn shared(&mut self, _: &[u8; 32]) -> Option<[u8; 32]> {
        None
    }
}

/// A card that has a point, and must not be asked for shared bytes.
struct PointOnly;

impl Card for PointOnly {
    fn point(&mut self) -> [u8; 32] {
        [1; 32]
    }

    fn shared(&mut self, _: &[u8; 32]) -> Option<[u8; 32]> {
        panic!("shared bytes are asked for")
    }
}

fn session(side: Side, cipher: Cipher, card: impl Card + Send + 'static) -> Session {
    let settings = Settings::new(side, true).with_cipher(cipher);
    Session::with_key(settings, &KEY, card, pair::addresses(side)).unwrap()
}

/// A server that asks its card when it sends its Nonce.
fn server_with(card: impl Card + Send + 'static) -> Session {
    let mut server = session(Side::Server, Cipher::CipherOnly, card);
    server.feed(&ByHand::new(Side::Server, 2).nonce(1));
    server.next(NOW).unwrap().expect("a Nonce");
    server
}

/// A client that asks its card when it takes the server's Nonce, which is there,
/// with bytes behind it.
fn client_with(card: impl Card + Send + 'static) -> Session {
    let mut client = session(Side::Client, Cipher::CipherOnly, card);
    client.send(NONCE, NOW).unwrap();
    assert_eq!(client.take_output().len(), 76);
    client.feed(&ByHand::new(Side::Client, 2).nonce(1));
    client.feed(&[0; 64]);
    client
}

/// Nothing is sent, taken or handed out any more.
fn assert_ended(mut session: Session) {
    let closed = Fault::Refused(Refusal::LINK_CLOSED);
    assert!(session.is_closed());
    for what in [NONCE, HANDSHAKE, ToSend::Ping { id: 1 }] {
        assert_eq!(session.send(what, NOW), Err(closed));
    }
    session.feed(&[0; 64]);
    assert_eq!(session.next(NOW), Err(closed));
    assert_eq!(session.take_output(), []);
}

#[test]
fn a_session_ends_where_its_card_refuses_the_point() {
    let mut server = server_with(Refusing);
    assert_eq!(server.send(NONCE, NOW), Err(Fault::Card));
    assert_ended(server);
    let mut client = client_with(Refusing);
    assert_eq!(client.next(NOW), Err(Fault::Card));
    assert_ended(client);
}

/// The caller catches the panic and goes on.
#[test]
fn a_session_ends_where_its_card_panics() {
    let mut server = server_with(PointOnly);
    let sent = catch_unwind(AssertUnwindSafe(|| server.send(NONCE, NOW)));
    assert!(sent.is_err());
    assert_ended(server);
    let mut client = client_with(PointOnly);
    let taken = catch_unwind(AssertUnwindSafe(|| client.next(NOW).map(drop)));
    assert!(taken.is_err());
    assert_ended(client);
}

/// Nobody asks for shared bytes under version 2, or if the link goes clear.
#[test]
fn shared_bytes_are_asked_for_only_where_they_are_needed() {
    for side in SIDES {
        for version in 0..=2 {
            let clear = session(side, Cipher::Either, PointOnly);
            assert_eq!(talk(clear, side, version, 0), Ok(false));
            for cipher in [Cipher::CipherOnly, Cipher::Either] {
                if version < 2 {
                    let ciphered = session(side, cipher, PointOnly);
                    assert_eq!(talk(ciphered, side, version, 1), Ok(true));
                }
            }
        }
    }
}

/// A server does not ask for a point if the link goes clear.
#[test]
fn a_point_is_asked_for_only_where_it_is_needed() {
    struct Never;
    impl Card for Never {
        fn point(&mut self) -> [u8; 32] {
            panic!("a point is asked for")
        }
        fn shared(&mut self, _: &[u8; 32]) -> Option<[u8; 32]> {
            panic!("shared bytes are asked for")
        }
    }
    for version in 0..=2 {
        let server = session(Side::Server, Cipher::Either, Never);
        assert_eq!(talk(server, Side::Server, version, 0), Ok(false));
    }
}
