//! What a padded link refuses, and what comes of a link that is padded at one end
//! only: the connection ends as by any other fault, and no answer goes astray.

use crate::padded::{world, WORD};
use crate::world::World;
use crate::{answer, answered, ask, ask_with, code};
use reference::message::Message;
use relay_example::event::{Event, Peer};

/// A front end has request 1 in flight at publisher 2, and both links are
/// padded. The last packet of each is of whole blocks, so that no word of a flush
/// is behind it.
fn asked() -> World {
    let mut world = world(true, true);
    world.front_says(0, ask_with(1, 2, b"twelve bytes"));
    world.publisher_says(2, answer(99, b"nobody's"));
    world.publisher_got(2);
    world
}

/// The front end's connection has ended by its fault, and its request with it.
fn front_has_ended(mut world: World) {
    assert_eq!(world.closed, [Peer::Front(0)]);
    assert_eq!(world.publisher_got(2), [Message::Cancel(1)]);
    let counts = world.core.counts();
    assert_eq!((counts.dropped, counts.closed), (1, 1));
    assert_eq!((counts.asked, counts.in_flight()), (1, 0));
}

/// The same of the publisher: an error comes in place of an answer.
fn publisher_has_ended(mut world: World) {
    assert_eq!(world.closed, [Peer::Publisher(2)]);
    let got = world.front_got(0);
    assert_eq!((got.len(), code(&got[0], 1)), (1, 20));
    let counts = world.core.counts();
    assert_eq!((counts.dropped, counts.lost), (1, 1));
    assert_eq!((counts.answered, counts.in_flight()), (0, 0));
    // It is as good as not there, until it is back.
    world.front_says(0, ask(2, 2));
    assert_eq!(code(&world.front_got(0)[0], 2), 20);
    world.connect(Peer::Publisher(2));
    world.front_says(0, ask(3, 2));
    world.publisher_says(2, answer(3, b"an answer"));
    assert_eq!(world.front_got(0), [answered(3, b"an answer")]);
}

/// 25.
#[test]
fn padding_that_is_not_zero_ends_the_connection() {
    for place in 1..=3 {
        let mut world = asked();
        let mut bytes = world.front_bytes(0, ask_with(2, 3, b"x"));
        assert_eq!(bytes.len(), 40);
        bytes[40 - place] = 1;
        world.tell(Event::Bytes(Peer::Front(0), &bytes));
        front_has_ended(world);

        let mut world = asked();
        let mut bytes = world.publisher_bytes(2, answer(1, b"x"));
        assert_eq!(bytes.len(), 28);
        bytes[28 - place] = 1;
        world.tell(Event::Bytes(Peer::Publisher(2), &bytes));
        publisher_has_ended(world);
    }
}

/// 26.
#[test]
fn a_fourth_word_ends_the_connection() {
    let mut world = asked();
    world.tell(Event::Bytes(Peer::Front(0), &WORD.repeat(3)));
    assert_eq!(world.closed, []);
    world.tell(Event::Bytes(Peer::Front(0), &WORD));
    front_has_ended(world);

    let mut world = asked();
    let answer = world.publisher_bytes(2, answer(1, b"x"));
    let bytes = [WORD.repeat(4), answer].concat();
    world.tell(Event::Bytes(Peer::Publisher(2), &bytes));
    publisher_has_ended(world);
}

#[test]
fn three_words_before_a_packet_are_skipped_in_any_cutting() {
    for size in 1..60 {
        let mut world = asked();
        let answer = world.publisher_bytes(2, answer(1, b"an answer"));
        for part in [WORD.repeat(3), answer].concat().chunks(size) {
            assert_eq!(world.front_got(0), []);
            world.tell(Event::Bytes(Peer::Publisher(2), part));
        }
        assert_eq!(world.front_got(0), [answered(1, b"an answer")]);
        assert_eq!(world.closed, []);
    }
}

/// A publisher that writes no zeros, though our link to it is padded: its answer
/// is not taken, and what follows it is no zeros (25).
#[test]
fn an_answer_without_its_zeros_is_not_delivered() {
    let mut world = asked();
    let mut bytes = world.publisher_bytes(2, answer(1, b"x"));
    bytes.truncate(25);
    world.tell(Event::Bytes(Peer::Publisher(2), &bytes));
    assert_eq!(world.front_got(0), []);
    let next = world.publisher_bytes(2, Message::ServerFin);
    world.tell(Event::Bytes(Peer::Publisher(2), &next));
    publisher_has_ended(world);
}

/// A publisher whose link is padded, though ours to it is not: a word is a
/// length that is too short (1), and so are zeros.
#[test]
fn an_unpadded_link_takes_neither_words_nor_zeros() {
    for between in [WORD, [0; 4]] {
        let mut world = world(true, false);
        world.front_says(0, ask(1, 2));
        let answer = world.publisher_bytes(2, answer(1, b"x"));
        let bytes = [&between[..], &answer].concat();
        world.tell(Event::Bytes(Peer::Publisher(2), &bytes));
        publisher_has_ended(world);
    }
}
