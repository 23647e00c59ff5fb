//! Padded links: every event ends at a block's end on each of them, with one
//! flush for all its packets. (`World` looks at all block ends after each event.)

use crate::other_end::OtherEnd;
use crate::world::{self, World};
use crate::{answer, answered, ask, ask_with};
use reference::link::Outgoing;
use reference::message::{Message, Side};
use relay_example::event::{Action, Event, Peer};
use relay_example::settings;

/// Of payloads: all that make a difference to blocks, and longer ones.
const LENGTHS: std::ops::Range<usize> = 0..40;

pub const WORD: [u8; 4] = [4, 0, 0, 0];

pub fn world(fronts: bool, publishers: bool) -> World {
    World::with(
        settings::FRONT.with_padded(fronts),
        [settings::PUBLISHER.with_padded(publishers); 8],
    )
}

#[test]
fn answers_come_back_wherever_links_are_padded() {
    for (fronts, publishers) in [(false, false), (false, true), (true, false), (true, true)] {
        let mut world = world(fronts, publishers);
        for (number, length) in (1..).zip(LENGTHS) {
            let payload = vec![b'x'; length];
            world.front_says(7, ask_with(-number, 2, &payload));
            let asked = world.publisher_got(2);
            assert_eq!(world::number(&asked[0]), number);
            match &asked[0] {
                Message::Invoke(invoke) => assert_eq!(invoke.payload, payload),
                other => panic!("no request: {other:?}"),
            }
            world.publisher_says(2, answer(number, &payload));
            assert_eq!(world.front_got(7), [answered(-number, &payload)]);
        }
        world.tell(Event::Tick);
        assert_eq!(world.core.counts().pongs, 40);
        assert_eq!(world.closed, []);
    }
}

/// Whom an action sends packets, how many, and the bytes behind the last: of a
/// padded link, behind its zeros.
fn sent(action: &Action, padded: bool) -> (Peer, usize, &[u8]) {
    let Action::Send(peer, sent) = action else {
        panic!("no packet: {action:?}");
    };
    let (mut rest, mut count) = (&sent[..], 0);
    while let Some(length) = rest.first_chunk().filter(|chunk| **chunk != WORD) {
        let length = u32::from_le_bytes(*length) as usize;
        rest = match padded {
            true => &rest[length.next_multiple_of(4)..],
            false => &rest[length..],
        };
        count += 1;
    }
    (*peer, count, rest)
}

/// The bytes behind the one packet that an action sends on a padded link.
fn behind(action: &Action) -> (Peer, &[u8]) {
    let (peer, count, words) = sent(action, true);
    assert_eq!(count, 1);
    (peer, words)
}

#[test]
fn an_event_has_one_output_and_one_flush_for_each_peer() {
    for padded in [true, false] {
        let mut world = world(padded, padded);
        let mut lump = Vec::new();
        for (number, actor, length) in [(1, 2, 3), (2, 3, 3), (3, 2, 5)] {
            lump.extend(world.front_bytes(0, ask_with(number, actor, &vec![b'x'; length])));
        }
        lump.extend(world.bytes(Peer::Front(0), Outgoing::Ping(9)));
        let actions = world.handle(Event::Bytes(Peer::Front(0), &lump));
        // Packets of 39, 39 and 41 bytes, and a Pong of 24.
        let words = if padded { [3, 2, 2] } else { [0; 3] };
        let words = words.map(|words| WORD.repeat(words));
        let expected = [
            (Peer::Publisher(2), 2, &words[0][..]),
            (Peer::Publisher(3), 1, &words[1]),
            (Peer::Front(0), 1, &words[2]),
        ];
        let sent = actions.iter().map(|action| sent(action, padded));
        assert!(sent.eq(expected), "{actions:?}");
    }
}

/// Behind a publisher's fin the cancel of its last request ends it, and a front
/// end is ended by a repeated request, behind a Ping.
#[test]
fn a_connection_is_flushed_before_it_ends() {
    let mut world = world(true, true);
    world.front_says(0, ask(1, 2));
    world.front_says(0, ask(2, 3));
    world.publisher_says(2, Message::ServerFin);
    let cancel = world.front_bytes(0, Message::Cancel(1));
    let actions = world.handle(Event::Bytes(Peer::Front(0), &cancel));
    let peer = Peer::Publisher(2);
    assert_eq!(behind(&actions[0]), (peer, &WORD.repeat(2)[..]));
    assert_eq!(actions[1..], [Action::Close(peer)]);

    let peer = Peer::Front(0);
    let ping = world.bytes(peer, Outgoing::Ping(9));
    let repeated = world.front_bytes(0, ask(2, 3));
    let actions = world.handle(Event::Bytes(peer, &[ping, repeated].concat()));
    assert_eq!(behind(&actions[0]), (peer, &WORD.repeat(2)[..]));
    assert_eq!(actions[1], Action::Close(peer));
}

#[test]
fn blocks_begin_with_our_handshake() {
    let mut world = world(true, true);
    let peer = Peer::Publisher(5);
    world.tell(Event::Closed(peer));
    let mut end = OtherEnd::with_padded(Side::Server, true, true);
    let mut actions = world.handle(Event::Connected(peer, world::opening()));
    // Behind our Nonce there is no word, and one behind a Handshake of 44 bytes.
    for words in [0, 1] {
        assert_eq!(behind(&actions[0]), (peer, &WORD.repeat(words)[..]));
        let Action::Send(_, sent) = &actions[0] else {
            panic!("no packet: {actions:?}");
        };
        assert_eq!(end.take_in(sent), Ok(vec![]));
        actions = world.handle(Event::Bytes(peer, &world::hand_over(&mut end)));
    }
    assert_eq!((actions, end.open), (vec![], true));
}
