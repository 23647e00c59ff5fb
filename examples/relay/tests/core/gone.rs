//! A front end and a publisher of the same number, both gone: which requests end,
//! with whom, in which order, and what may be asked then.

use crate::world::{self, World};
use crate::{answer, answered, ask, code};
use reference::message::Message;
use relay_example::event::{Action, Event, Peer};

const FRONT: Peer = Peer::Front(3);
const PUBLISHER: Peer = Peer::Publisher(3);

/// Requests, oldest first: link, number, publisher. Two are between link 3 and
/// publisher 3, and one, of link 4 at publisher 5, is of neither.
const ASKED: [(u8, i64, i64); 8] = [
    (4, 1, 3),
    (3, 2, 5),
    (3, 1, 3),
    (4, 2, 5),
    (6, 9, 3),
    (3, 7, 1),
    (3, 5, 3),
    (6, 3, 3),
];

/// Publisher 3 has the numbers 1 to 5, publisher 5 has 1 and 2, publisher 1 has 1.
fn world() -> World {
    let mut world = World::new();
    for (link, number, actor) in ASKED {
        world.front_says(link, ask(number, actor));
    }
    for publisher in [1, 3, 5] {
        world.publisher_got(publisher);
    }
    world
}

fn cancels(numbers: &[i64]) -> Vec<Message<Vec<u8>>> {
    numbers.iter().copied().map(Message::Cancel).collect()
}

/// A front end got an error of a gone peer under each of these numbers, and
/// nothing else.
fn is_refused(world: &mut World, link: u8, numbers: &[i64]) {
    let got = world.front_got(link);
    assert_eq!(got.len(), numbers.len(), "{got:?}");
    for (message, &number) in got.iter().zip(numbers) {
        assert_eq!(code(message, number), 20);
    }
}

/// Both are gone: the one request of others is answered, and nothing else.
fn is_over(world: &mut World, closed: u64, lost: u64) {
    let counts = world.core.counts();
    assert_eq!((counts.closed, counts.lost), (closed, lost));
    assert_eq!((counts.asked, counts.in_flight()), (8, 1));
    assert_eq!(world.closed, []);
    world.publisher_says(5, answer(1, b"late"));
    world.publisher_says(1, answer(1, b"late"));
    world.publisher_says(5, answer(2, b"in time"));
    assert_eq!(world.front_got(4), [answered(2, b"in time")]);
    let counts = world.core.counts();
    assert_eq!((counts.answered, counts.late), (1, 2));
}

#[test]
fn a_front_end_and_then_the_publisher_of_its_number() {
    let mut world = world();
    world.tell(Event::Closed(FRONT));
    assert_eq!(world.publisher_got(3), cancels(&[2, 4]));
    assert_eq!(world.publisher_got(5), cancels(&[1]));
    assert_eq!(world.publisher_got(1), cancels(&[1]));
    world.tell(Event::Closed(PUBLISHER));
    is_refused(&mut world, 4, &[1]);
    is_refused(&mut world, 6, &[9, 3]);
    assert_eq!(world.front_got(3), []);
    // They are gone already.
    world.tell(Event::Closed(FRONT));
    world.tell(Event::Closed(PUBLISHER));
    is_over(&mut world, 4, 3);
}

#[test]
fn a_publisher_and_then_the_front_end_of_its_number() {
    let mut world = world();
    world.tell(Event::Closed(PUBLISHER));
    is_refused(&mut world, 4, &[1]);
    is_refused(&mut world, 6, &[9, 3]);
    is_refused(&mut world, 3, &[1, 5]);
    world.tell(Event::Closed(FRONT));
    assert_eq!(world.publisher_got(5), cancels(&[1]));
    assert_eq!(world.publisher_got(1), cancels(&[1]));
    assert_eq!(world.publisher_got(3), []);
    world.tell(Event::Closed(PUBLISHER));
    world.tell(Event::Closed(FRONT));
    is_over(&mut world, 2, 5);
}

/// Whom an event's packets go to, in their order.
fn told(world: &mut World, event: Event) -> Vec<Peer> {
    let send = |action| match action {
        Action::Send(peer, _) => peer,
        other => panic!("no packet: {other:?}"),
    };
    world.handle(event).into_iter().map(send).collect()
}

/// Whose request was accepted first is told first.
#[test]
fn the_other_ends_are_told_in_order_of_acceptance() {
    let publishers = [5, 3, 1].map(Peer::Publisher);
    assert_eq!(told(&mut world(), Event::Closed(FRONT)), publishers);
    let fronts = [4, 3, 6].map(Peer::Front);
    assert_eq!(told(&mut world(), Event::Closed(PUBLISHER)), fronts);
}

/// Asks `count` of publisher 3 under new numbers, and one more, which is one too
/// many.
fn fills_up(world: &mut World, link: u8, from: i64, count: i64) {
    for number in from..=from + count {
        world.front_says(link, ask(number, 3));
    }
    let got = world.front_got(link);
    assert_eq!((got.len(), code(&got[0], from + count)), (1, 32));
}

#[test]
fn the_load_of_the_gone_is_free_again() {
    let mut world = World::new();
    for number in 1..=5 {
        world.front_says(3, ask(number, 3));
    }
    fills_up(&mut world, 4, 1, 11);
    world.tell(Event::Closed(FRONT));
    fills_up(&mut world, 4, 100, 5);
    world.tell(Event::Closed(PUBLISHER));
    assert_eq!(world.front_got(4).len(), 16);
    world.connect(PUBLISHER);
    world.connect(FRONT);
    world.publisher_got(3);
    fills_up(&mut world, 3, 1, 16);
    // The numbers went on: five, eleven and five were given before.
    let numbers = world.publisher_got(3);
    let numbers: Vec<i64> = numbers.iter().map(world::number).collect();
    assert!(numbers.into_iter().eq(22..=37));
    assert_eq!(world.core.counts().in_flight(), 16);
}
