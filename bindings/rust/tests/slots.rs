//! The table's slots through the wrapper, seen by `raw`.
#![cfg(feature = "raw")]

#[path = "common/random.rs"]
mod random;

use random::Random;
use relay::{raw, FrontNumber, OtherEnds, Peer, PublisherNumber, Table, ALL_ENDS};
use std::num::NonZeroU32;

/// The places of the used slots are those from 0 on, each once.
fn has_every_place_once(raw: &raw::Table) {
    let used = (0..64).filter(|i| raw.masks[0] >> i & 1 == 1);
    let mut places: Vec<u8> = used.map(|i| raw.order[i]).collect();
    places.sort_unstable();
    assert!(places
        .into_iter()
        .map(u32::from)
        .eq(0..raw.masks[0].count_ones()));
}

/// Every slot that is freed is the next to be taken, where it is the lowest.
#[test]
fn a_new_request_takes_the_lowest_free_slot() {
    let mut table = Table::new(PublisherNumber(1)).unwrap();
    for front in 1..=64 {
        let publisher = front as u8 % 8;
        table.ask(7, FrontNumber(front), publisher).unwrap();
        assert_eq!(table.raw().masks[0], u64::MAX >> (64 - front));
        assert_eq!(table.raw().order[front as usize - 1], front as u8 - 1);
    }
    for slot in [63, 0, 31, 32] {
        let front = FrontNumber(slot + 1);
        let (publisher, _) = table.cancel(7, front).unwrap();
        assert_eq!(table.raw().masks[0], !(1 << slot));
        has_every_place_once(table.raw());
        table.ask(8, front, publisher).unwrap();
        assert_eq!(table.raw().masks[0], u64::MAX);
        assert_eq!(table.raw().places[slot as usize], 8);
        assert_eq!(table.raw().order[slot as usize], 63);
        has_every_place_once(table.raw());
    }
}

/// A copy is a table of its own.
#[test]
fn a_clone_goes_its_own_way() {
    let mut table = Table::new(PublisherNumber(1)).unwrap();
    table.ask(1, FrontNumber(5), 0).unwrap();
    let mut other = table.clone();
    assert_eq!(other.reply(0, PublisherNumber(1)).unwrap().0, 1);
    assert_eq!((table.raw().masks[0], other.raw().masks[0]), (1, 0));
    assert_eq!(table.reply(0, PublisherNumber(1)).unwrap().0, 1);
}

/// Takes every end.
fn counted(ends: OtherEnds) -> usize {
    match ends {
        OtherEnds::Publishers(ends) => ends.count(),
        OtherEnds::Fronts(ends) => ends.count(),
    }
}

/// What the wrapper makes of the answers holds for any contents: no more ends
/// than the slice has.
#[test]
fn garbage_never_panics() {
    let mut random = Random(8);
    let mut table = Table::new(PublisherNumber(1)).unwrap();
    let mut out = [0; ALL_ENDS];
    for n in 0..20_000 {
        let raw = table.raw();
        let spread = |random: &mut Random| if n % 2 == 0 { u64::MAX } else { random.next() };
        raw.masks = std::array::from_fn(|_| spread(&mut random));
        raw.numbers = std::array::from_fn(|_| spread(&mut random) as i64 % 4);
        raw.places = std::array::from_fn(|_| spread(&mut random) as u8 % 40);
        raw.order = random.bytes(64).try_into().unwrap();
        raw.times = std::array::from_fn(|_| random.next() >> random.below(64));
        let (a, b) = (random.below(34) as u8, random.below(9) as u8);
        let number = random.below(5) as i64 - 1;
        let _ = table.ask(a, FrontNumber(number), b);
        let _ = table.reply(b, PublisherNumber(number));
        let _ = table.cancel(a, FrontNumber(number));
        let room = random.below(ALL_ENDS + 1);
        let lost = table
            .gone(Peer::Publisher(b), &mut out[..room])
            .map(counted);
        assert!(lost.is_err() || 2 * lost.unwrap() <= room);
        let time = random.next() >> random.below(64);
        let timeout = NonZeroU32::new(random.next() as u32);
        let _ = table.ask_by(a, FrontNumber(number), b, time, timeout);
        let ran_out = table
            .run_out(time, &mut out[..room])
            .map(|ends| ends.count());
        assert!(ran_out.is_err() || 2 * ran_out.unwrap() <= room);
        let closed = table.gone(Peer::Front(a), &mut out).map(counted);
        assert_eq!(closed.is_ok(), a < 32);
    }
}
