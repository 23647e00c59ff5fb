//! Links that are set up with a key: which keys they refuse, and that nothing
//! on the wire tells them from links without one.

use crate::{pattern, SIDES};
use relay::{
    Answer, Arrival, Invoke, Link, Message, Moment, NetPid, Refusal, Settings, Side, ToSend,
};

const NOW: Moment = Moment {
    time: 1_700_000_000,
};

/// The refusal at either side.
fn refusal(key: &[u8], lowest: u8) -> Option<Refusal> {
    let set_up = |side| Link::with_key(Settings::new(side, true).with_lowest(lowest), key).err();
    let [client, server] = SIDES.map(set_up);
    assert_eq!(client, server);
    client
}

#[test]
fn keys_by_their_length() {
    for n in [32, 33, 4095, 4096] {
        assert_eq!(refusal(&pattern(n), 0), None, "{n}");
    }
    for n in [0, 1, 4, 31, 4097, 5000] {
        let expected = Some(Refusal::UNSUITABLE_KEY);
        assert_eq!(refusal(&pattern(n), 0), expected, "{n}");
    }
}

#[test]
fn keys_with_zeros_in_front() {
    for n in [32, 4096] {
        for zeros in 0..=n {
            let mut key = pattern(n);
            key[..zeros].fill(0);
            let expected = (zeros >= 4).then_some(Refusal::UNSUITABLE_KEY);
            assert_eq!(refusal(&key, 0), expected, "{zeros} of {n}");
        }
        // Any one of the four is enough.
        for at in 0..4 {
            let mut key = vec![0; n];
            key[at] = 1;
            assert_eq!(refusal(&key, 0), None, "{at}");
        }
    }
}

#[test]
fn an_unsuitable_key_comes_before_a_lowest_version_above_2() {
    let mut zeros = pattern(32);
    zeros[..4].fill(0);
    for lowest in 0..=u8::MAX {
        for key in [&[], &pattern(31)[..], &pattern(4097), &zeros] {
            let expected = Some(Refusal::UNSUITABLE_KEY);
            assert_eq!(refusal(key, lowest), expected, "{lowest}");
        }
        let expected = (lowest > 2).then_some(Refusal::OUT_OF_RANGE);
        assert_eq!(refusal(&pattern(32), lowest), expected, "{lowest}");
    }
}

fn link(side: Side, padded: bool, key: Option<&[u8]>) -> Link {
    let settings = Settings::new(side, true).with_padded(padded);
    match key {
        None => Link::new(settings).unwrap(),
        Some(key) => Link::with_key(settings, key).unwrap(),
    }
}

/// The opening, a Ping and its Pong, an invoke and its result.
fn talk() -> [(Side, ToSend<'static>); 8] {
    let nonce = ToSend::Nonce { random: [7; 16] };
    let handshake = ToSend::Handshake {
        sender: NetPid::default(),
        peer: NetPid::default(),
    };
    let invoke = Message::Invoke(Invoke {
        number: 5,
        actor: None,
        timeout: None,
        tl2: false,
        payload: b"request",
    });
    let answer = Answer::Payload(b"page");
    let result = Message::Result { number: 5, answer };
    [
        (Side::Client, nonce),
        (Side::Server, nonce),
        (Side::Client, handshake),
        (Side::Server, handshake),
        (Side::Client, ToSend::Ping { id: 1 }),
        (Side::Server, ToSend::Pong),
        (Side::Client, ToSend::Message(invoke)),
        (Side::Server, ToSend::Message(result)),
    ]
}

/// All that two links write as they open and talk.
fn written(mut client: Link, mut server: Link) -> Vec<u8> {
    let mut wire = Vec::new();
    for (sender, what) in talk() {
        let (from, to) = match sender {
            Side::Client => (&mut client, &mut server),
            Side::Server => (&mut server, &mut client),
        };
        let mut buf = [0xee; 112];
        let size = from.send(&mut buf, what, NOW).unwrap();
        let arrival = to.receive(&buf[..size], NOW);
        assert!(matches!(arrival, Arrival::Packet { consumed, .. } if consumed == size));
        // The words are not handed over: a reader does not miss them.
        let words = from.flush(&mut buf[size..]).unwrap();
        wire.extend(&buf[..size + words]);
    }
    assert!(client.is_open() && server.is_open());
    wire
}

#[test]
fn a_key_changes_nothing_on_the_wire() {
    let (one, other) = (pattern(32), vec![9; 4096]);
    let keys = [None, Some(&one[..]), Some(&other)];
    for padded in [false, true] {
        let without = written(
            link(Side::Client, padded, None),
            link(Side::Server, padded, None),
        );
        for client in keys {
            for server in keys {
                let with = written(
                    link(Side::Client, padded, client),
                    link(Side::Server, padded, server),
                );
                assert_eq!(with, without);
            }
        }
    }
}
