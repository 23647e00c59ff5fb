//! Publishers of old versions, behind links that take them or do not.

use crate::other_end::OtherEnd;
use crate::world::World;
use crate::{answer, answered, ask, code};
use reference::message::Side;
use relay_example::event::{Event, Peer};
use relay_example::settings;

const PUBLISHER: u8 = 2;
const PEER: Peer = Peer::Publisher(PUBLISHER);

/// All is open, then one publisher, whose link has this lowest version, is
/// replaced by one of another version. Also whether a Handshake came there.
fn replaced(lowest: u8, version: u8) -> (World, bool) {
    let mut settings = [settings::PUBLISHER; 8];
    settings[usize::from(PUBLISHER)].lowest = lowest;
    let mut world = World::with_publishers(settings);
    world.tell(Event::Closed(PEER));
    let opened = world.opens(PEER, OtherEnd::of_version(Side::Server, true, version));
    (world, opened)
}

#[test]
fn a_publisher_below_the_lowest_version_is_closed_before_the_handshake() {
    for (lowest, version) in [(1, 0), (2, 0), (2, 1)] {
        let (mut world, opened) = replaced(lowest, version);
        assert!(!opened);
        assert_eq!(world.closed, [PEER]);
        let counts = world.core.counts();
        assert_eq!((counts.dropped, counts.too_old()), (1, 1));
        // It is as good as not there, and the others are unharmed.
        world.front_says(0, ask(1, PUBLISHER.into()));
        assert_eq!(code(&world.front_got(0)[0], 1), 20);
        world.front_says(0, ask(2, 3));
        world.publisher_says(3, answer(1, b"from another"));
        assert_eq!(world.front_got(0), [answered(2, b"from another")]);
        assert_eq!(world.publisher_got(PUBLISHER), []);
        // One of our version may take its place.
        world.connect(PEER);
    }
}

#[test]
fn a_publisher_from_the_lowest_version_up_serves() {
    for (lowest, version) in [(0, 0), (0, 1), (0, 2), (1, 1), (1, 2), (2, 2)] {
        let (mut world, opened) = replaced(lowest, version);
        assert!(opened);
        assert_eq!(world.closed, []);
        let counts = world.core.counts();
        assert_eq!((counts.dropped, counts.too_old()), (0, 0));
        world.front_says(0, ask(1, PUBLISHER.into()));
        world.publisher_says(PUBLISHER, answer(1, b"an answer"));
        assert_eq!(world.front_got(0), [answered(1, b"an answer")]);
    }
}

#[test]
fn the_lowest_version_of_one_publisher_is_not_anothers() {
    let mut settings = [settings::PUBLISHER.with_lowest(2); 8];
    settings[usize::from(PUBLISHER)].lowest = 1;
    let mut world = World::with_publishers(settings);
    for publisher in 0..8 {
        let peer = Peer::Publisher(publisher);
        world.tell(Event::Closed(peer));
        let opened = world.opens(peer, OtherEnd::of_version(Side::Server, true, 1));
        assert_eq!(opened, publisher == PUBLISHER);
    }
}

#[test]
fn front_ends_of_old_versions_are_taken() {
    let mut world = World::with_publishers([settings::PUBLISHER.with_lowest(2); 8]);
    for version in 0..=2 {
        let peer = Peer::Front(version);
        world.tell(Event::Closed(peer));
        assert!(world.opens(peer, OtherEnd::of_version(Side::Client, true, version)));
        world.front_says(version, ask(1, PUBLISHER.into()));
        assert_eq!(world.publisher_got(PUBLISHER).len(), 1);
    }
}
