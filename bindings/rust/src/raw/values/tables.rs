//! Table, Asked, Replied, Cancelled, Dropped.

mod any_contents;
mod defined;
mod garbage;
mod gone;
mod places;
#[path = "../../../tests/common/random.rs"]
mod random;
mod slots;
mod times;

use super::*;
use crate::{FrontNumber, PublisherNumber};

const FIRST: i64 = 0x0102_0304_0506_0708;

/// The last time that is in range.
const LAST_TIME: u64 = (1 << 62) - 1;

/// The sides of a gone peer.
const LINK: bool = false;
const PUBLISHER: bool = true;

const EMPTY: Table = Table {
    masks: [0; 9],
    numbers: [0; 136],
    places: [0; 128],
    order: [0; 64],
    times: [0; 65],
};

fn fresh() -> Table {
    let mut table = EMPTY;
    assert_eq!(relay_fresh(&mut table, PublisherNumber(FIRST)), 0);
    table
}

/// A request of `full`: link, front number, publisher, publisher number.
fn request(i: usize) -> (u8, i64, u8, i64) {
    let n = i as i64;
    (i as u8 % 32, 1000 + n, i as u8 % 8, 2000 + n)
}

/// The slot of a request of `full`: neither by age nor against it, nor its own
/// inverse, so that a slot is never taken for a place.
fn slot(i: usize) -> usize {
    (11 * i + 63) % 64
}

/// The deadline of a request of `full`.
fn deadline(i: usize) -> u64 {
    3000 + i as u64
}

/// A table by hand: 64 requests, from the oldest on, all their fields different,
/// and no deadline has come.
fn full() -> Table {
    let mut table = EMPTY;
    table.masks[0] = u64::MAX;
    table.numbers[128..].fill(1);
    table.times[64] = deadline(0) - 1;
    for i in 0..64 {
        let slot = slot(i);
        let (link, front, publisher, number) = request(i);
        table.masks[1 + usize::from(publisher)] |= 1 << slot;
        (table.numbers[slot], table.numbers[64 + slot]) = (front, number);
        (table.places[slot], table.places[64 + slot]) = (link, publisher);
        table.order[slot] = i as u8;
        table.times[slot] = deadline(i);
    }
    table
}

/// The used slots, oldest first: they have the places from 0 on, each once.
fn by_age(table: &Table) -> Vec<usize> {
    let used = (0..64).filter(|i| table.masks[0] >> i & 1 == 1);
    let mut used: Vec<usize> = used.collect();
    used.sort_by_key(|&i| table.order[i]);
    let places = used.iter().map(|&i| usize::from(table.order[i]));
    assert!(places.eq(0..used.len()), "{:?}", table.order);
    used
}

/// What is left of `full` without some of its requests: the others stay in every
/// mask, and their places close up.
fn is_full_without(table: &Table, gone: impl Fn(usize) -> bool) {
    let slots = (0..64).filter(|&i| gone(i)).map(slot);
    let mask = slots.fold(0, |mask, slot| mask | 1 << slot);
    assert_eq!(table.masks, full().masks.map(|all| all & !mask));
    let left = (0..64).filter(|&i| !gone(i)).map(slot);
    assert!(by_age(table).into_iter().eq(left));
}

#[test]
fn a_fresh_table() {
    let mut empty = EMPTY;
    empty.numbers[128..].fill(FIRST);
    assert_eq!(fresh(), empty);
    let mut used = full();
    assert_eq!(relay_fresh(&mut used, PublisherNumber(FIRST)), 0);
    assert_eq!(used.masks, [0; 9]);
    assert_eq!(used.numbers[..128], full().numbers[..128]);
    assert_eq!(used.numbers[128..], [FIRST; 8]);
    assert_eq!((used.places, used.order), (full().places, full().order));
    assert_eq!(used.times[..64], full().times[..64]);
    assert_eq!(used.times[64], 0);
}

#[test]
fn asks_write_every_field() {
    let mut table = fresh();
    table.order = [255; 64];
    let asks = [(31, -7, 5), (3, i64::MIN, 5), (9, 0x1112_1314_1516_1718, 7)];
    for (link, front, publisher) in asks {
        let asked = relay_ask(&mut table, link, FrontNumber(front), publisher);
        assert_eq!(asked.refusal, 0);
    }
    assert_eq!(table.masks, [7, 0, 0, 0, 0, 0, 3, 0, 4]);
    assert_eq!(table.numbers[..3], asks.map(|ask| ask.1));
    assert_eq!(table.numbers[64..67], [FIRST, FIRST + 1, FIRST]);
    let mut next = [FIRST; 8];
    (next[5], next[7]) = (FIRST + 2, FIRST + 1);
    assert_eq!(table.numbers[128..], next);
    assert_eq!(table.places[..3], asks.map(|ask| ask.0));
    assert_eq!(table.places[64..67], asks.map(|ask| ask.2));
    assert_eq!(table.order[..3], [0, 1, 2]);
    assert_eq!(table.order[3..], [255; 61]);
}

#[test]
fn an_ask_answers_with_its_number() {
    let asked = relay_ask(&mut fresh(), 1, FrontNumber(5), 2);
    let expected = Asked {
        refusal: 0,
        number: PublisherNumber(FIRST),
    };
    assert_eq!(asked, expected);
    let asked = relay_ask(&mut fresh(), 1, FrontNumber(0), 2);
    let refused = Asked {
        refusal: 12,
        number: PublisherNumber(0),
    };
    assert_eq!(asked, refused);
}

#[test]
fn each_request_is_found_by_either_end() {
    for i in 0..64 {
        let (link, front, publisher, number) = request(i);
        let replied = relay_reply(&mut full(), publisher, PublisherNumber(number));
        let expected = Replied {
            refusal: 0,
            link,
            number: FrontNumber(front),
        };
        assert_eq!(replied, expected);
        let cancelled = relay_cancel(&mut full(), link, FrontNumber(front));
        let expected = Cancelled {
            refusal: 0,
            publisher,
            number: PublisherNumber(number),
        };
        assert_eq!(cancelled, expected);
    }
    let none = relay_reply(&mut full(), 0, PublisherNumber(1));
    assert_eq!((none.refusal, none.link, none.number.0), (34, 0, 0));
    let none = relay_cancel(&mut full(), 40, FrontNumber(1));
    assert_eq!((none.refusal, none.publisher, none.number.0), (30, 0, 0));
}

#[test]
fn drops_count_and_write() {
    let mut out = [-9; 6];
    let dropped = relay_gone(&mut full(), LINK, 31, &mut out[..6]);
    let two = Dropped {
        refusal: 0,
        count: 2,
    };
    assert_eq!(dropped, two);
    assert_eq!(out, [7, 2031, 7, 2063, -9, -9]);
    let mut out = [-9; 17];
    let dropped = relay_gone(&mut full(), PUBLISHER, 6, &mut out[..17]);
    assert_eq!((dropped.refusal, dropped.count), (0, 8));
    assert_eq!(out[..4], [6, 1006, 14, 1014]);
    assert_eq!(out[16], -9);
    let dropped = relay_gone(&mut full(), PUBLISHER, 6, &mut out[..15]);
    let short = Dropped {
        refusal: 16,
        count: 0,
    };
    assert_eq!(dropped, short);
}
