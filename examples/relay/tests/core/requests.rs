//! Where requests and answers go.

use crate::world::{self, World};
use crate::{answer, answered, ask, code};
use reference::message::{values, Message, Outcome};
use relay_example::event::{Event, Peer};

#[test]
fn two_front_links_may_use_the_same_number() {
    let mut world = World::new();
    world.front_says(3, ask(77, 0));
    world.front_says(4, ask(77, 0));
    let numbers: Vec<i64> = world.publisher_got(0).iter().map(world::number).collect();
    assert_eq!(numbers, [1, 2]);
    world.publisher_says(0, answer(2, b"for four"));
    assert_eq!(world.front_got(3), []);
    assert_eq!(world.front_got(4), [answered(77, b"for four")]);
    world.publisher_says(0, answer(1, b"for three"));
    assert_eq!(world.front_got(3), [answered(77, b"for three")]);
    assert_eq!(world.front_got(4), []);
}

#[test]
fn an_answer_after_a_cancel_goes_nowhere() {
    let mut world = World::new();
    world.front_says(0, ask(5, 9));
    world.front_says(0, Message::Cancel(5));
    let got = world.publisher_got(1);
    assert_eq!(got.len(), 2);
    assert_eq!(got[1], Message::Cancel(1));
    world.publisher_says(1, answer(1, b"late"));
    assert_eq!(world.front_got(0), []);
    // Nor does it go to the next request under the same front number.
    world.front_says(0, ask(5, 9));
    world.publisher_says(1, answer(1, b"later"));
    assert_eq!(world.front_got(0), []);
    world.publisher_says(1, answer(2, b"in time"));
    world.publisher_says(1, answer(2, b"twice"));
    assert_eq!(world.front_got(0), [answered(5, b"in time")]);
    let counts = world.core.counts();
    assert_eq!(
        (counts.late, counts.cancelled, counts.in_flight()),
        (3, 1, 0)
    );
}

#[test]
fn a_lost_publisher_ends_its_requests() {
    let mut world = World::new();
    world.front_says(1, ask(10, 2));
    world.front_says(2, ask(20, 2));
    world.front_says(2, ask(21, 3));
    world.tell(Event::Closed(Peer::Publisher(2)));
    assert_eq!(code(&world.front_got(1)[0], 10), 20);
    let got = world.front_got(2);
    assert_eq!((got.len(), code(&got[0], 20)), (1, 20));
    // Until it is back, its requests are turned away.
    world.front_says(1, ask(11, 2));
    assert_eq!(code(&world.front_got(1)[0], 11), 20);
    // Then numbering goes on, and old answers go nowhere.
    world.publisher_got(2);
    world.connect(Peer::Publisher(2));
    world.front_says(1, ask(12, 2));
    assert_eq!(world::number(&world.publisher_got(2)[0]), 4);
    world.publisher_says(2, answer(1, b"from before"));
    world.publisher_says(2, answer(4, b"from now"));
    assert_eq!(world.front_got(1), [answered(12, b"from now")]);
    world.publisher_says(3, answer(1, b"unharmed"));
    assert_eq!(world.front_got(2), [answered(21, b"unharmed")]);
}

#[test]
fn a_closed_front_link_cancels_its_requests() {
    let mut world = World::new();
    for (number, actor) in [(1, 6), (2, 7), (3, 6)] {
        world.front_says(9, ask(number, actor));
    }
    world.front_says(8, ask(1, 6));
    world.publisher_got(6);
    world.publisher_got(7);
    world.tell(Event::Closed(Peer::Front(9)));
    assert_eq!(
        world.publisher_got(6),
        [Message::Cancel(1), Message::Cancel(2)]
    );
    assert_eq!(world.publisher_got(7), [Message::Cancel(1)]);
    // Whoever has the link next gets nothing of it.
    world.connect(Peer::Front(9));
    world.publisher_says(6, answer(2, b"late"));
    world.publisher_says(6, answer(3, b"still asked"));
    assert_eq!(world.front_got(9), []);
    assert_eq!(world.front_got(8), [answered(1, b"still asked")]);
}

#[test]
fn refused_asks_are_told() {
    let mut world = World::new();
    for number in 1..=17 {
        world.front_says(0, ask(number, 0));
    }
    assert_eq!(code(&world.front_got(0)[0], 17), 32);
    // Loads 16, 16, 12: the rest is reserved for the other five.
    for number in 1..=16 {
        world.front_says(1, ask(number, 1));
    }
    for number in 1..=13 {
        world.front_says(2, ask(number, 2));
    }
    assert_eq!(world.front_got(1), []);
    assert_eq!(code(&world.front_got(2)[0], 13), 33);
    world.front_says(3, ask(1, 3));
    assert_eq!(world.front_got(3), []);
}

#[test]
fn the_actor_names_the_publisher() {
    let mut world = World::new();
    for (actor, publisher) in [(0, 0), (3, 3), (15, 7), (-1, 7), (-8, 0), (i64::MIN, 0)] {
        world.front_says(0, ask(actor | 1 << 40, actor));
        assert_eq!(world.publisher_got(publisher).len(), 1);
    }
    let no_actor = [&1_i64.to_le_bytes()[..], b"question"].concat();
    world.front_says_raw(0, values::INVOKE, &no_actor);
    assert_eq!(world.publisher_got(0).len(), 1);
}

#[test]
fn errors_pass_in_every_form() {
    let mut world = World::new();
    for number in 1..=4 {
        world.front_says(0, ask(number, 0));
    }
    let error = |number: i64, front: &[u8]| {
        let mut body = number.to_le_bytes().to_vec();
        body.extend(front);
        body.extend((-7_i32).to_le_bytes());
        body.extend(b"\x03why");
        body
    };
    let numbered = [&values::ERROR_NUMBERED.to_le_bytes()[..], &[9; 8]].concat();
    for (number, packet_type, front) in [
        (1, values::RESULT, &values::ERROR.to_le_bytes()[..]),
        (2, values::RESULT, &values::ERROR_WRAPPED.to_le_bytes()),
        (3, values::RESULT, &numbered),
        (4, values::OLD_ERROR, &[]),
    ] {
        world.publisher_says_raw(0, packet_type, &error(number, front));
        let expected = Message::Result(number, Outcome::Error(-7, b"why".to_vec()));
        assert_eq!(world.front_got(0), [expected]);
    }
}
