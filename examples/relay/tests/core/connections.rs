//! What ends a connection, and what does not.

use crate::other_end::OtherEnd;
use crate::world::{self, World};
use crate::{answer, answered, ask, code};
use reference::message::{Message, Side};
use relay_example::event::{Event, Peer};

#[test]
fn a_broken_packet_ends_the_connection() {
    let mut world = World::new();
    world.front_says(0, ask(1, 0));
    world.publisher_got(0);
    let mut broken = world.front_bytes(0, ask(2, 0));
    broken[14] ^= 1;
    world.tell(Event::Bytes(Peer::Front(0), &broken));
    assert_eq!(world.closed, [Peer::Front(0)]);
    assert_eq!(world.publisher_got(0), [Message::Cancel(1)]);
    assert_eq!(world.core.counts().in_flight(), 0);
}

#[test]
fn bytes_may_come_one_by_one() {
    let mut world = World::new();
    for byte in world.front_bytes(0, ask(2, 4)) {
        assert_eq!(world.publisher_got(4), []);
        world.tell(Event::Bytes(Peer::Front(0), &[byte]));
    }
    assert_eq!(world.publisher_got(4).len(), 1);
}

#[test]
fn a_publisher_that_wants_to_finish_is_let_go() {
    let mut world = World::new();
    world.front_says(0, ask(1, 5));
    world.publisher_got(5);
    world.publisher_says(5, Message::ServerFin);
    assert_eq!(world.publisher_got(5), [Message::ClientFin]);
    world.front_says(0, ask(2, 5));
    assert_eq!(code(&world.front_got(0)[0], 2), 20);
    assert_eq!(world.closed, []);
    world.publisher_says(5, answer(1, b"the last"));
    assert_eq!(world.front_got(0), [answered(1, b"the last")]);
    assert_eq!(world.closed, [Peer::Publisher(5)]);
}

#[test]
fn a_silent_peer_is_given_up() {
    let mut world = World::new();
    world.tell(Event::Tick);
    assert_eq!(world.core.counts().pongs, 40);
    world.silent = Some(Peer::Front(6));
    // Its Pong came after the last tick; then a Ping is unanswered.
    world.tell(Event::Tick);
    assert_eq!(world.closed, []);
    world.tell(Event::Tick);
    assert_eq!(world.closed, [Peer::Front(6)]);
}

#[test]
fn a_front_end_asks_nothing_after_its_fin() {
    let mut world = World::new();
    world.front_says(0, ask(1, 2));
    world.front_says(0, Message::ClientFin);
    world.publisher_says(2, answer(1, b"still answered"));
    assert_eq!(world.front_got(0), [answered(1, b"still answered")]);
    world.front_says(0, ask(2, 2));
    assert_eq!(world.closed, [Peer::Front(0)]);
    assert_eq!(world.publisher_got(2).len(), 1);
}

/// A new connection whose opening comes to no end.
fn half_open(world: &mut World, peer: Peer) {
    let side = match peer {
        Peer::Front(_) => Side::Client,
        Peer::Publisher(_) => Side::Server,
    };
    world.tell(Event::Closed(peer));
    world.silent = Some(peer);
    assert!(!world.opens(peer, OtherEnd::new(side, true)));
}

#[test]
fn an_opening_must_end_in_its_time() {
    let mut world = World::new();
    for peer in [Peer::Front(3), Peer::Publisher(3)] {
        half_open(&mut world, peer);
        world.closed.clear();
        // The keep-alive is not its judge.
        for _ in 0..3 {
            world.tell(Event::Tick);
        }
        assert_eq!(world.closed, []);
        world.tell(Event::OpeningOver(peer));
        assert_eq!(world.closed, [peer]);
        // It is gone already.
        world.tell(Event::OpeningOver(peer));
        assert_eq!(world.closed, [peer]);
        world.silent = None;
        world.connect(peer);
    }
    let counts = world.core.counts();
    assert_eq!((counts.unopened, counts.dropped), (2, 2));
}

#[test]
fn an_open_link_outlives_the_time_for_its_opening() {
    let mut world = World::new();
    for peer in [Peer::Front(3), Peer::Publisher(3)] {
        world.tell(Event::OpeningOver(peer));
    }
    assert_eq!(world.closed, []);
    world.front_says(3, ask(1, 3));
    world.publisher_says(3, answer(1, b"an answer"));
    assert_eq!(world.front_got(3), [answered(1, b"an answer")]);
    assert_eq!(world.core.counts().unopened, 0);
}

#[test]
fn a_connection_that_is_given_up_ends_its_requests() {
    let mut world = World::new();
    world.front_says(0, ask(1, 2));
    world.front_says(1, ask(1, 2));
    world.publisher_got(2);
    world.tell(Event::Slow(Peer::Front(0)));
    assert_eq!(world.closed, [Peer::Front(0)]);
    assert_eq!(world.publisher_got(2), [Message::Cancel(1)]);
    world.tell(Event::Slow(Peer::Publisher(2)));
    assert_eq!(world.closed, [Peer::Front(0), Peer::Publisher(2)]);
    assert_eq!(code(&world.front_got(1)[0], 1), 20);
    let counts = world.core.counts();
    assert_eq!((counts.slow, counts.dropped), (2, 2));
    assert_eq!((counts.closed, counts.lost, counts.in_flight()), (1, 1, 0));
}

#[test]
fn connections_that_are_not_taken_are_counted() {
    let mut world = World::new();
    world.tell(Event::TurnedAway);
    // There is no such link.
    world.tell(Event::Connected(Peer::Front(32), world::opening()));
    assert_eq!(world.closed, [Peer::Front(32)]);
    let counts = world.core.counts();
    assert_eq!((counts.turned_away, counts.dropped), (2, 0));
}
