//! A second request under a number in flight ends its link: nothing is ever
//! answered twice under one number.

use crate::unreadable::REQUESTS;
use crate::world::World;
use crate::{answer, answered, ask, code};
use reference::message::Message;
use relay_example::event::Peer;

/// Link 0 has requests 1 and 2 in flight at publishers 3 and 4, and link 1 its
/// own request 1 at publisher 3.
fn in_flight() -> World {
    let mut world = World::new();
    world.front_says(0, ask(1, 3));
    world.front_says(0, ask(2, 4));
    world.front_says(1, ask(1, 3));
    world.publisher_got(3);
    world.publisher_got(4);
    world
}

/// Link 0 has ended without a word, its requests are freed and cancelled, and
/// link 1 has lost nothing.
fn has_ended(mut world: World) {
    assert_eq!(world.closed, [Peer::Front(0)]);
    assert_eq!(world.front_got(0), []);
    assert_eq!(world.publisher_got(3), [Message::Cancel(1)]);
    assert_eq!(world.publisher_got(4), [Message::Cancel(1)]);
    let counts = world.core.counts();
    assert_eq!((counts.repeated, counts.dropped), (1, 1));
    assert_eq!((counts.asked, counts.closed, counts.in_flight()), (3, 2, 1));
    assert!(counts.refused.is_empty());
    // Nor does the first one's answer follow, even to a new connection.
    world.connect(Peer::Front(0));
    world.publisher_says(3, answer(1, b"too late"));
    assert_eq!(world.front_got(0), []);
    world.publisher_says(3, answer(2, b"for one"));
    assert_eq!(world.front_got(1), [answered(1, b"for one")]);
    assert_eq!(world.core.counts().in_flight(), 0);
}

#[test]
fn a_number_in_flight_asked_again_ends_the_link() {
    for publisher in [3, 4, 5] {
        let mut world = in_flight();
        world.front_says(0, ask(1, publisher));
        assert_eq!(world.publisher_got(5), []);
        has_ended(world);
    }
}

#[test]
fn also_where_the_second_request_cannot_be_read() {
    for form in REQUESTS {
        let mut world = in_flight();
        world.front_says_raw(0, form.packet_type, &form.body(1));
        assert_eq!(world.core.counts().unread, 1);
        has_ended(world);
    }
}

#[test]
fn a_number_may_be_used_again_after_its_answer() {
    let mut world = World::new();
    for number in 1..=3 {
        world.front_says(0, ask(7, 3));
        world.publisher_says(3, answer(number, b"an answer"));
        assert_eq!(world.front_got(0), [answered(7, b"an answer")]);
        let form = REQUESTS[0];
        world.front_says_raw(0, form.packet_type, &form.body(7));
        assert_eq!(code(&world.front_got(0)[0], 7), form.refusal);
    }
    assert_eq!(world.core.counts().repeated, 0);
    assert_eq!(world.closed, []);
}

/// The publisher has sent its fin, and the repeated request is its last.
#[test]
fn the_end_of_the_link_may_be_a_publishers_last_request() {
    let mut world = World::new();
    world.front_says(0, ask(1, 3));
    world.publisher_says(3, Message::ServerFin);
    let form = REQUESTS[0];
    world.front_says_raw(0, form.packet_type, &form.body(1));
    assert_eq!(world.closed, [Peer::Publisher(3), Peer::Front(0)]);
    let counts = world.core.counts();
    assert_eq!((counts.closed, counts.lost, counts.in_flight()), (1, 0, 0));
}
