//! Requests whose deadline comes: who is told what, once, and what may be asked
//! then.

use crate::world::{self, World, TIMEOUT};
use crate::{answer, answered, ask, code};
use reference::message::{Message, Outcome};
use relay_example::event::{Action, Event, Peer};
use relay_example::settings;

/// Of the error for a request that ran out.
const RAN_OUT: i32 = 100;

fn look_at(world: &mut World, ms: u64) {
    world.ms = ms;
    world.tell(Event::RunOut);
}

/// A front end got the error under each of these numbers, and nothing else.
fn ran_out(world: &mut World, link: u8, numbers: &[i64]) {
    let got = world.front_got(link);
    assert_eq!(got.len(), numbers.len(), "{got:?}");
    for (message, &number) in got.iter().zip(numbers) {
        assert_eq!(code(message, number), RAN_OUT);
    }
}

fn cancels(numbers: &[i64]) -> Vec<Message<Vec<u8>>> {
    numbers.iter().copied().map(Message::Cancel).collect()
}

#[test]
fn before_and_at_the_deadline() {
    let mut world = World::new();
    world.ms = 500;
    world.front_says(3, ask(77, 2));
    world.publisher_got(2);
    look_at(&mut world, 500 + TIMEOUT - 1);
    assert_eq!(
        (world.front_got(3), world.publisher_got(2)),
        (vec![], vec![])
    );
    assert_eq!(world.core.counts().in_flight(), 1);
    look_at(&mut world, 500 + TIMEOUT);
    let text = b"the publisher has not answered in time (100)".to_vec();
    let error = Message::Result(77, Outcome::Error(RAN_OUT, text));
    assert_eq!(world.front_got(3), [error]);
    assert_eq!(world.publisher_got(2), cancels(&[1]));
    let counts = world.core.counts();
    assert_eq!((counts.ran_out, counts.in_flight()), (1, 0));
    assert_eq!((counts.refused[&100], counts.cancelled), (1, 0));
    assert_eq!(world.closed, []);
}

/// Nobody is told twice, and a late answer goes nowhere.
#[test]
fn each_end_is_told_once() {
    let mut world = World::new();
    world.front_says(3, ask(77, 2));
    world.publisher_got(2);
    look_at(&mut world, TIMEOUT);
    ran_out(&mut world, 3, &[77]);
    world.publisher_got(2);
    look_at(&mut world, TIMEOUT);
    look_at(&mut world, 9 * TIMEOUT);
    world.publisher_says(2, answer(1, b"late"));
    world.front_says(3, Message::Cancel(77));
    assert_eq!(
        (world.front_got(3), world.publisher_got(2)),
        (vec![], vec![])
    );
    let counts = world.core.counts();
    assert_eq!(
        (counts.ran_out, counts.late, counts.idle_cancels),
        (1, 1, 1)
    );
    // The number is free.
    world.front_says(3, ask(77, 2));
    assert_eq!(
        world.publisher_got(2).iter().map(world::number).next(),
        Some(2)
    );
}

#[test]
fn what_has_ended_does_not_run_out() {
    let mut world = World::new();
    for number in 1..=4 {
        world.front_says(3, ask(number, 2));
    }
    world.front_says(5, ask(1, 2));
    world.publisher_says(2, answer(1, b"in time"));
    world.front_says(3, Message::Cancel(2));
    world.tell(Event::Closed(Peer::Front(5)));
    world.publisher_got(2);
    assert_eq!(world.front_got(3), [answered(1, b"in time")]);
    look_at(&mut world, TIMEOUT);
    ran_out(&mut world, 3, &[3, 4]);
    assert_eq!(world.publisher_got(2), cancels(&[3, 4]));
    let counts = world.core.counts();
    assert_eq!(
        (counts.asked, counts.ran_out, counts.in_flight()),
        (5, 2, 0)
    );
}

/// Publisher 3 has all that it may have: from links 0 to 3 in turn, one in each
/// millisecond from the first on, under the numbers 1 to 16 at both ends.
fn hung() -> World {
    let mut world = World::new();
    for number in 1..=16 {
        world.ms = number as u64;
        world.front_says((number as u8 - 1) % 4, ask(number, 3));
    }
    world.front_says(9, ask(17, 3));
    assert_eq!(code(&world.front_got(9)[0], 17), 32);
    world
}

/// It keeps no load, and others are not disturbed.
#[test]
fn a_hung_publisher() {
    let mut world = hung();
    world.ms = 1000;
    world.front_says(9, ask(17, 4));
    world.publisher_got(3);
    look_at(&mut world, TIMEOUT + 8);
    assert_eq!(world.publisher_got(3), cancels(&[1, 2, 3, 4, 5, 6, 7, 8]));
    look_at(&mut world, TIMEOUT + 16);
    assert_eq!(
        world.publisher_got(3),
        cancels(&[9, 10, 11, 12, 13, 14, 15, 16])
    );
    for link in 0..4 {
        let numbers = [1, 5, 9, 13].map(|number| number + i64::from(link));
        ran_out(&mut world, link, &numbers);
    }
    for number in 1..=16 {
        world.publisher_says(3, answer(number, b"late"));
    }
    world.front_says(9, ask(18, 3));
    world.publisher_says(3, answer(17, b"a page"));
    world.publisher_says(4, answer(1, b"another"));
    assert_eq!(
        world.front_got(9),
        [answered(18, b"a page"), answered(17, b"another")]
    );
    let counts = world.core.counts();
    assert_eq!(
        (counts.ran_out, counts.late, counts.in_flight()),
        (16, 16, 0)
    );
    assert_eq!((counts.lost, counts.dropped), (0, 0));
}

/// Its fin came before: with its last request its connection ends.
#[test]
fn a_publisher_that_finishes_and_hangs() {
    let mut world = World::new();
    world.front_says(3, ask(1, 2));
    world.ms = 10;
    world.front_says(3, ask(2, 2));
    world.publisher_says(2, Message::ServerFin);
    look_at(&mut world, TIMEOUT);
    assert_eq!(world.closed, []);
    look_at(&mut world, TIMEOUT + 10);
    assert_eq!(world.closed, [Peer::Publisher(2)]);
    ran_out(&mut world, 3, &[1, 2]);
    assert_eq!(world.core.counts().lost, 0);
}

/// Whom a look's packets go to, in their order.
fn told(world: &mut World) -> Vec<Peer> {
    let send = |action| match action {
        Action::Send(peer, _) => peer,
        other => panic!("no packet: {other:?}"),
    };
    let actions = world.handle(Event::RunOut);
    actions.into_iter().map(send).collect()
}

#[test]
fn who_asked_first_is_told_first() {
    let mut world = World::new();
    for (link, publisher) in [(6, 5), (4, 1), (5, 5), (4, 3)] {
        world.front_says(link, ask(1 + publisher, publisher));
    }
    world.ms = TIMEOUT;
    let [front, publisher] = [Peer::Front, Peer::Publisher];
    let expected = [
        publisher(5),
        front(6),
        publisher(1),
        front(4),
        front(5),
        publisher(3),
    ];
    assert_eq!(told(&mut world), expected);
    assert_eq!(told(&mut world), []);
}

/// The latest time that the relay has seen counts.
#[test]
fn a_clock_that_goes_back() {
    let mut world = World::new();
    world.ms = 5000;
    world.front_says(3, ask(1, 2));
    world.ms = 0;
    world.front_says(3, ask(2, 2));
    look_at(&mut world, TIMEOUT + 4999);
    assert_eq!(world.front_got(3), []);
    look_at(&mut world, TIMEOUT + 5000);
    ran_out(&mut world, 3, &[1, 2]);
}

#[test]
fn without_a_timeout_nothing_runs_out() {
    let links = (settings::FRONT, [settings::PUBLISHER; 8]);
    let mut world = World::with_timeout(links.0, links.1, 0);
    world.front_says(3, ask(1, 2));
    look_at(&mut world, (1 << 62) - 1);
    assert_eq!(world.front_got(3), []);
    world.publisher_says(2, answer(1, b"a page"));
    assert_eq!(world.front_got(3), [answered(1, b"a page")]);
}
