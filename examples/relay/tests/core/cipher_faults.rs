//! Other keys, other points and changed bytes on ciphered links: the connection
//! ends, it is counted, and no answer goes astray.

use crate::cipher::{world, PEER, PUBLISHER};
use crate::other_end::{OtherEnd, Secrets, KEY};
use crate::world::{self, World};
use crate::{answer, answered, ask, code};
use reference::checksum::CRC32;
use reference::link::packet::{whole, HANDSHAKE, PING};
use reference::message::Side;
use relay::{Card, Cipher};
use relay_example::event::{Action, Event, Opening, Peer, Warning};
use std::collections::BTreeMap;

/// A new connection with an end that has this key.
fn opens_with_key(world: &mut World, peer: Peer, key: &[u8]) -> bool {
    let side = match peer {
        Peer::Front(_) => Side::Client,
        Peer::Publisher(_) => Side::Server,
    };
    world.tell(Event::Closed(peer));
    let secrets = Secrets::new(Cipher::CipherOnly, key);
    world.opens(peer, OtherEnd::with_cipher(side, true, 2, secrets))
}

/// 9, where the relay sees it first: a front end's Nonce, and a publisher's that
/// does not look at ours.
#[test]
fn another_key_id_is_refused_and_counted() {
    let mut other = KEY;
    other[0] ^= 1;
    let mut world = world(Cipher::Either, Cipher::Either);
    assert!(!opens_with_key(&mut world, Peer::Front(4), &other));
    assert_eq!(world.closed, [Peer::Front(4)]);
    let counts = world.core.counts();
    assert_eq!((counts.not_agreed(), counts.other_keys), (1, 0));

    let secrets = Secrets {
        says: Some(1),
        ..Secrets::new(Cipher::CipherOnly, &other)
    };
    world.tell(Event::Closed(PEER));
    let end = OtherEnd::with_cipher(Side::Server, true, 2, secrets);
    assert!(!world.opens(PEER, end));
    assert_eq!(world.closed, [Peer::Front(4), PEER]);
    assert_eq!(world.core.counts().not_agreed(), 2);
    assert_eq!(world.warned, []);
}

/// The same KeyID: the first ciphered packet cannot be read.
#[test]
fn another_key_under_the_same_key_id_is_told() {
    let mut other = KEY;
    other[39] ^= 1;
    let mut world = world(Cipher::Either, Cipher::Either);
    assert!(!opens_with_key(&mut world, Peer::Front(4), &other));
    assert_eq!(world.closed, [Peer::Front(4)]);
    let counts = world.core.counts();
    assert_eq!((counts.not_agreed(), counts.other_keys), (0, 1));
    let faults: Vec<_> = counts.faults.iter().collect();
    assert!(matches!(faults[..], [(1 | 3 | 4, 1)]), "{counts}");
    assert_eq!(world.warned, [(Peer::Front(4), Warning::OtherKeys)]);
    // The others are unharmed.
    world.front_says(5, ask(1, PUBLISHER.into()));
    world.publisher_says(PUBLISHER, answer(1, b"an answer"));
    assert_eq!(world.front_got(5), [answered(1, b"an answer")]);
}

/// A publisher with another key would refuse our Handshake; one that sends its
/// own all the same is not read.
#[test]
fn a_publishers_handshake_under_another_key_is_told() {
    let mut world = world(Cipher::ClearOnly, Cipher::CipherOnly);
    world.tell(Event::Closed(PEER));
    let secrets = Secrets::new(Cipher::CipherOnly, &KEY);
    let mut end = OtherEnd::with_cipher(Side::Server, true, 2, secrets);
    let opening = world::opening_with_card();
    let actions = world.handle(Event::Connected(PEER, opening));
    let [Action::Send(PEER, nonce)] = &actions[..] else {
        panic!("no Nonce: {actions:?}");
    };
    assert_eq!(end.take_in(nonce), Ok(vec![]));
    world.handle(Event::Bytes(PEER, &end.take_output()));
    world.tell(Event::Bytes(PEER, &[0x5a; 48]));
    assert_eq!(world.closed, [PEER]);
    assert_eq!(world.core.counts().other_keys, 1);
    assert_eq!(world.warned, [(PEER, Warning::OtherKeys)]);
}

/// A packet of a Handshake's number, with its zeros.
fn second_packet(packet_type: u32, body: &[u8]) -> Vec<u8> {
    let mut packet = whole(u32::MAX, packet_type, body, CRC32);
    packet.resize(packet.len().next_multiple_of(4), 0);
    packet
}

/// A front end with the right key opens its link with this in its Handshake's
/// place.
fn opens_with(world: &mut World, peer: Peer, packet: Vec<u8>) {
    world.tell(Event::Closed(peer));
    let secrets = Secrets::new(Cipher::CipherOnly, &KEY);
    let mut end = OtherEnd::with_cipher(Side::Client, true, 2, secrets);
    world.tell(Event::Connected(peer, world::opening_with_card()));
    let actions = world.handle(Event::Bytes(peer, &end.take_output()));
    let [Action::Send(_, nonce)] = &actions[..] else {
        panic!("no Nonce: {actions:?}");
    };
    assert_eq!(end.take_in(nonce), Ok(vec![]));
    end.output = packet;
    world.tell(Event::Bytes(peer, &world::hand_over(&mut end)));
}

#[test]
fn a_fault_behind_the_right_key_is_counted_and_not_told() {
    let mut damaged = second_packet(HANDSHAKE, &[0; 28]);
    damaged[20] ^= 1;
    let mut not_zero = second_packet(HANDSHAKE, &[0; 29]);
    not_zero[47] = 1;
    for (number, packet) in [
        (5, second_packet(PING, &[0; 28])),
        (6, damaged),
        (7, second_packet(HANDSHAKE, &[0; 27])),
        (25, not_zero),
    ] {
        let mut world = world(Cipher::CipherOnly, Cipher::CipherOnly);
        opens_with(&mut world, Peer::Front(4), packet);
        assert_eq!(world.closed, [Peer::Front(4)]);
        assert_eq!(world.warned, []);
        let counts = world.core.counts();
        assert_eq!((counts.dropped, counts.other_keys), (1, 0));
        assert_eq!(counts.faults, BTreeMap::from([(number, 1)]));
    }
}

#[test]
fn faults_come_last_in_the_counts_by_number() {
    let mut world = world(Cipher::Either, Cipher::ClearOnly);
    assert!(!world.core.counts().to_string().contains("fault"));
    let short = second_packet(HANDSHAKE, &[0; 27]);
    for _ in 0..2 {
        opens_with(&mut world, Peer::Front(4), short.clone());
    }
    let mut other = KEY;
    other[0] ^= 1;
    opens_with_key(&mut world, Peer::Front(5), &other);
    let counts = world.core.counts().to_string();
    assert!(counts.ends_with(" fault_7 2 fault_9 1"), "{counts}");
}

/// A card that finds every point bad.
struct Refusing;

impl Card for Refusing {
    fn point(&mut self) -> [u8; 32] {
        [1; 32]
    }

    fn shared(&mut self, _: &[u8; 32]) -> Option<[u8; 32]> {
        None
    }
}

#[test]
fn a_point_that_the_card_refuses_ends_the_connection() {
    let mut world = world(Cipher::CipherOnly, Cipher::CipherOnly);
    let peer = Peer::Front(4);
    world.tell(Event::Closed(peer));
    let secrets = Secrets::new(Cipher::CipherOnly, &KEY);
    let mut end = OtherEnd::with_cipher(Side::Client, true, 2, secrets);
    let opening = Opening {
        card: Some(Box::new(Refusing)),
        ..world::opening()
    };
    world.tell(Event::Connected(peer, opening));
    let actions = world.handle(Event::Bytes(peer, &end.take_output()));
    let expected = [Action::Warn(peer, Warning::BadPoint), Action::Close(peer)];
    assert_eq!(actions, expected);
    let counts = world.core.counts();
    assert_eq!((counts.bad_points, counts.dropped), (1, 1));
}

/// Without a card a link that may cipher is not set up at all.
#[test]
fn a_connection_without_a_card_is_not_taken() {
    let mut world = world(Cipher::CipherOnly, Cipher::CipherOnly);
    let peer = Peer::Front(4);
    world.tell(Event::Closed(peer));
    world.tell(Event::Connected(peer, world::opening()));
    assert_eq!(world.closed, [peer]);
    assert_eq!(world.core.counts().turned_away, 1);
}

/// Any one byte of an answer: it is not delivered, its request ends with an error
/// when the link does, and at the latest when the next bytes come.
#[test]
fn a_changed_byte_of_an_answer_delivers_nothing() {
    for at in 0..48 {
        let mut world = world(Cipher::CipherOnly, Cipher::CipherOnly);
        world.front_says(0, ask(1, PUBLISHER.into()));
        world.publisher_got(PUBLISHER);
        let mut bytes = world.publisher_bytes_flushed(PUBLISHER, answer(1, b"an answer"));
        assert_eq!(bytes.len(), 48);
        bytes[at] ^= 0x40;
        world.tell(Event::Bytes(PEER, &bytes));
        // Where a length has become longer, it waits for that.
        if world.closed.is_empty() {
            world.tell(Event::Bytes(PEER, &vec![0; 1 << 16]));
        }
        let got = world.front_got(0);
        assert_eq!((got.len(), code(&got[0], 1)), (1, 20), "{at}");
        assert_eq!(world.closed, [PEER], "{at}");
    }
}

/// What a front end is sent before its fault in the same event does not leave.
#[test]
fn nothing_unflushed_leaves_at_a_fault() {
    let mut world = world(Cipher::CipherOnly, Cipher::ClearOnly);
    let peer = Peer::Front(0);
    let ping = world.bytes_flushed(peer, reference::link::Outgoing::Ping(9));
    let lump = [ping, vec![0; 64]].concat();
    let actions = world.handle(Event::Bytes(peer, &lump));
    assert_eq!(actions, [Action::Close(peer)]);
}
