//! What a session holds of its secrets, and until when.

use crate::pair::{self, Pair, Plain};
use crate::{CIPHERS, KEY, NOW, SIDES};
use relay::{Card, Cipher, Fault, Refusal, Session, Settings, Side, ToSend};
use std::sync::atomic::{AtomicBool, Ordering};
use std::sync::Arc;

/// A card that tells when it is dropped, and with it the link's key.
struct Watched(Plain, Arc<AtomicBool>);

impl Card for Watched {
    fn point(&mut self) -> [u8; 32] {
        self.0.point()
    }

    fn shared(&mut self, theirs: &[u8; 32]) -> Option<[u8; 32]> {
        self.0.shared(theirs)
    }
}

impl Drop for Watched {
    fn drop(&mut self) {
        self.1.store(true, Ordering::Relaxed);
    }
}

fn watched(side: Side, cipher: Cipher) -> (Session, Arc<AtomicBool>) {
    let is_dropped = Arc::new(AtomicBool::new(false));
    let card = Watched(Plain(7), Arc::clone(&is_dropped));
    let settings = Settings::new(side, true).with_cipher(cipher);
    let session = Session::with_key(settings, &KEY, card, pair::addresses(side));
    (session.unwrap(), is_dropped)
}

/// They go with the second Nonce, whatever is chosen; of a link that goes clear
/// only, at once.
#[test]
fn key_and_card_go_with_the_second_nonce() {
    for server_cipher in [Cipher::Either, Cipher::ClearOnly] {
        for client_cipher in CIPHERS {
            if (client_cipher, server_cipher) == (Cipher::CipherOnly, Cipher::ClearOnly) {
                continue;
            }
            let (client, of_client) = watched(Side::Client, client_cipher);
            let (server, of_server) = watched(Side::Server, server_cipher);
            let seen = || [&of_client, &of_server].map(|is| is.load(Ordering::Relaxed));
            let clear = [client_cipher, server_cipher].map(|c| c == Cipher::ClearOnly);
            assert_eq!(seen(), clear);
            let mut pair = Pair::of(client, server);
            for (sender, expected) in SIDES.into_iter().zip([clear, [true, true]]) {
                let random = pair::random(sender);
                pair.pass_whole(sender, &[ToSend::Nonce { random }])
                    .unwrap();
                assert_eq!(seen(), expected, "{client_cipher:?}, {server_cipher:?}");
            }
        }
    }
}

/// Or with the refusal that closes the link.
#[test]
fn a_session_that_is_closed_lets_go() {
    for side in SIDES {
        let (mut session, is_dropped) = watched(side, Cipher::CipherOnly);
        let refused = |refusal| Err(Fault::Refused(refusal));
        if side == Side::Client {
            assert_eq!(session.next(NOW), refused(Refusal::NOT_OUR_TURN));
            session
                .send(ToSend::Nonce { random: [7; 16] }, NOW)
                .unwrap();
        }
        assert!(!is_dropped.load(Ordering::Relaxed));
        session.feed(&[0; 12]);
        assert_eq!(session.next(NOW), refused(Refusal::LENGTH_UNDER_16));
        assert!(is_dropped.load(Ordering::Relaxed));
        for _ in 0..2 {
            assert_eq!(session.next(NOW), refused(Refusal::LINK_CLOSED));
            session.feed(&[0; 12]);
        }
    }
}

/// And with the session at the latest.
#[test]
fn a_session_that_never_opens_lets_go_when_it_is_dropped() {
    let (session, is_dropped) = watched(Side::Server, Cipher::CipherOnly);
    assert!(!is_dropped.load(Ordering::Relaxed));
    drop(session);
    assert!(is_dropped.load(Ordering::Relaxed));
}

#[test]
fn a_session_shows_no_secret() {
    let (session, _) = watched(Side::Client, Cipher::CipherOnly);
    let shown = format!("{session:?}");
    assert!(shown.starts_with("Session { link: Link("), "{shown}");
    assert!(shown.ends_with("), .. }"), "{shown}");
}
