//! Links that go through the cipher: they open as their settings say, and requests
//! and answers go over them as over any other.

use crate::other_end::{OtherEnd, Secrets, CIPHERS, KEY};
use crate::world::{self, World};
use crate::{answer, answered, ask, ask_with, code};
use reference::message::Side;
use relay::keys::Key;
use relay::{Cipher, Settings};
use relay_example::event::{Event, Peer};
use relay_example::settings::{self, LinkSettings};
use std::sync::Arc;

pub const PUBLISHER: u8 = 2;
pub const PEER: Peer = Peer::Publisher(PUBLISHER);

/// With a key only where the link may cipher, as the command line has it.
pub fn link(settings: Settings, cipher: Cipher) -> LinkSettings {
    LinkSettings {
        settings: settings.with_cipher(cipher),
        key: (cipher != Cipher::ClearOnly).then(|| Arc::new(Key::new(&KEY))),
    }
}

/// All links to front ends are set so, and all to publishers; the other ends alike.
pub fn world(fronts: Cipher, publishers: Cipher) -> World {
    let publisher = link(settings::PUBLISHER, publishers);
    World::with(
        link(settings::FRONT, fronts),
        std::array::from_fn(|_| publisher.clone()),
    )
}

#[test]
fn answers_come_back_wherever_links_are_ciphered() {
    for fronts in CIPHERS {
        for publishers in CIPHERS {
            let mut world = world(fronts, publishers);
            for (number, length) in (1..).zip(0..40) {
                let payload = vec![b'x'; length];
                world.front_says(7, ask_with(-number, 2, &payload));
                assert_eq!(world::number(&world.publisher_got(2)[0]), number);
                world.publisher_says(2, answer(number, &payload));
                assert_eq!(world.front_got(7), [answered(-number, &payload)]);
            }
            world.tell(Event::Tick);
            assert_eq!(world.core.counts().pongs, 40);
            assert_eq!(world.closed, []);
        }
    }
}

/// One publisher is replaced by an end that is set so, of this version.
fn replaced(ours: Cipher, theirs: Cipher, version: u8) -> (World, bool) {
    let mut world = world(Cipher::ClearOnly, ours);
    world.tell(Event::Closed(PEER));
    let secrets = Secrets::new(theirs, &KEY);
    // It answers what is refused too, as the settings of an end that is wrong.
    let secrets = Secrets {
        says: (theirs != Cipher::Either).then_some(u8::from(theirs == Cipher::CipherOnly)),
        ..secrets
    };
    let end = OtherEnd::with_cipher(Side::Server, true, version, secrets);
    let opened = world.opens(PEER, end);
    (world, opened)
}

#[test]
fn a_publisher_is_served_by_or_as_good_as_not_there() {
    for ours in CIPHERS {
        for theirs in CIPHERS {
            for version in 0..=2 {
                let (mut world, opened) = replaced(ours, theirs, version);
                let fits = ours == Cipher::Either || theirs == Cipher::Either || ours == theirs;
                assert_eq!(opened, fits, "{ours:?}, {theirs:?}, {version}");
                world.front_says(0, ask(1, PUBLISHER.into()));
                let counts = world.core.counts();
                let not_agreed = u64::from(!fits);
                assert_eq!(
                    (counts.dropped, counts.not_agreed()),
                    (not_agreed, not_agreed)
                );
                if !fits {
                    assert_eq!(world.closed, [PEER]);
                    assert_eq!(code(&world.front_got(0)[0], 1), 20);
                    continue;
                }
                world.publisher_says(PUBLISHER, answer(1, b"an answer"));
                assert_eq!(world.front_got(0), [answered(1, b"an answer")]);
            }
        }
    }
}

/// What a front end offers, against how the relay's links to front ends are set.
#[test]
fn a_front_end_is_served_by_or_as_good_as_not_there() {
    for ours in CIPHERS {
        for version in 0..=2 {
            for offer in [0, 1, 2, 3, 255] {
                let mut world = world(ours, Cipher::ClearOnly);
                let peer = Peer::Front(3);
                world.tell(Event::Closed(peer));
                let secrets = Secrets {
                    says: Some(offer),
                    ..Secrets::new(Cipher::Either, &KEY)
                };
                let end = OtherEnd::with_cipher(Side::Client, true, version, secrets);
                let opened = world.opens(peer, end);
                let refused = match ours {
                    Cipher::ClearOnly => offer == 1,
                    Cipher::CipherOnly => offer == 0,
                    Cipher::Either => false,
                };
                assert_eq!(opened, !refused, "{ours:?}, {version}, {offer}");
                assert_eq!(world.core.counts().not_agreed(), u64::from(refused));
                if opened {
                    world.front_says(3, ask(1, PUBLISHER.into()));
                    world.publisher_says(PUBLISHER, answer(1, b"an answer"));
                    assert_eq!(world.front_got(3), [answered(1, b"an answer")]);
                }
            }
        }
    }
}

/// Both directions of a request, in parts of every size.
#[test]
fn ciphered_bytes_may_come_in_any_parts() {
    for size in 1..40 {
        let mut world = world(Cipher::CipherOnly, Cipher::Either);
        for number in 1..4 {
            let asked = world.front_bytes_flushed(0, ask_with(number, 2, b"a question"));
            for part in asked.chunks(size) {
                assert_eq!(world.publisher_got(2), []);
                world.tell(Event::Bytes(Peer::Front(0), part));
            }
            assert_eq!(world::number(&world.publisher_got(2)[0]), number);
            let answer = world.publisher_bytes_flushed(2, answer(number, b"an answer"));
            for part in answer.chunks(size) {
                assert_eq!(world.front_got(0), []);
                world.tell(Event::Bytes(PEER, part));
            }
            assert_eq!(world.front_got(0), [answered(number, b"an answer")]);
        }
        assert_eq!(world.closed, []);
    }
}
