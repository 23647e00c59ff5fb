//! Contents that no call has written, by hand: every call answers what is defined
//! for them, and a refused one writes nothing.

use super::*;

const ONES: Table = Table {
    masks: [u64::MAX; 9],
    numbers: [-1; 136],
    places: [255; 128],
    order: [255; 64],
    times: [u64::MAX; 65],
};

/// Requests 70, 71 and so on of link 3 to publisher 5, in slots 0, 1 and so on,
/// and places of one's own.
fn placed<const N: usize>(order: [u8; N]) -> Table {
    let mut table = fresh();
    for front in 70..70 + N as i64 {
        relay_ask(&mut table, 3, FrontNumber(front), 5);
    }
    table.order[..N].copy_from_slice(&order);
    table
}

#[test]
fn asks_of_all_ones() {
    let mut table = ONES;
    let refusals = [
        (0, 1, 0, 32),
        (31, -1, 7, 32),
        (32, -1, 0, 30),
        (0, 0, 0, 12),
    ];
    for (link, front, publisher, refusal) in refusals {
        let asked = relay_ask(&mut table, link, FrontNumber(front), publisher);
        assert_eq!((asked.refusal, asked.number.0), (refusal, 0));
    }
    assert_eq!(table, ONES);
    // All slots used and none a publisher's: there is no slot to take.
    table.masks[1..].fill(0);
    let before = table;
    let asked = relay_ask(&mut table, 0, FrontNumber(1), 0);
    assert_eq!((asked.refusal, asked.number.0), (33, 0));
    assert_eq!(table, before);
    // One slot is free, and takes the last place; the number is what stands there.
    for slot in [63, 20, 0] {
        let mut table = before;
        table.masks[0] = !(1 << slot);
        let asked = relay_ask(&mut table, 0, FrontNumber(1), 0);
        assert_eq!((asked.refusal, asked.number.0), (0, -1));
        let mut expected = before;
        expected.masks[1] = 1 << slot;
        (expected.numbers[slot], expected.numbers[128]) = (1, 0);
        (expected.places[slot], expected.places[64 + slot]) = (0, 0);
        expected.order[slot] = 63;
        (expected.times[slot], expected.times[64]) = (0, LAST_TIME);
        assert_eq!(table, expected);
    }
}

#[test]
fn replies_and_cancels_of_all_ones() {
    let mut table = ONES;
    let replied = relay_reply(&mut table, 7, PublisherNumber(1));
    assert_eq!(
        (replied.refusal, replied.link, replied.number.0),
        (34, 0, 0)
    );
    let cancelled = relay_cancel(&mut table, 31, FrontNumber(-1));
    assert_eq!(cancelled.refusal, 34);
    assert_eq!(table, ONES);
    let replied = relay_reply(&mut table, 7, PublisherNumber(-1));
    assert_eq!(
        (replied.refusal, replied.link, replied.number.0),
        (0, 255, -1)
    );
    let expected = Table {
        masks: [!1; 9],
        ..ONES
    };
    assert_eq!(table, expected);
    (table.places[9], table.order[9]) = (31, 254);
    let cancelled = relay_cancel(&mut table, 31, FrontNumber(-1));
    assert_eq!(
        (cancelled.refusal, cancelled.publisher, cancelled.number.0),
        (0, 255, -1)
    );
    assert_eq!(table.masks, [!(1 | 1 << 9); 9]);
    // Slot 0, which is not used, comes one forward with the others.
    assert_eq!(table.order, [254; 64]);
}

#[test]
fn drops_of_all_ones() {
    let mut table = ONES;
    (table.places[63], table.numbers[63]) = (1, 8);
    let before = table;
    let mut out = [7; 130];
    let dropped = relay_gone(&mut table, PUBLISHER, 2, &mut out[..127]);
    assert_eq!((dropped.refusal, dropped.count), (16, 0));
    assert_eq!((table, out), (before, [7; 130]));
    // Slot 63 has the last place, and slot 0 stands in all others: it takes each
    // of them in turn where none leaves.
    let dropped = relay_gone(&mut table, LINK, 31, &mut out);
    assert_eq!((dropped.refusal, dropped.count), (0, 0));
    let mut expected = before;
    (expected.order[0], expected.order[63]) = (62, 63);
    assert_eq!((table, out), (expected, [7; 130]));
    let mut table = before;
    let dropped = relay_gone(&mut table, PUBLISHER, 2, &mut out);
    assert_eq!((dropped.refusal, dropped.count), (0, 64));
    assert!(out[..126].chunks(2).all(|end| end == [255, -1]));
    assert_eq!(out[126..], [1, 8, 7, 7]);
    let expected = Table {
        masks: [0; 9],
        ..before
    };
    assert_eq!(table, expected);
}

/// They are laid out by their six lowest bits, and closed up as they are.
#[test]
fn places_over_63() {
    let mut out = [0; 4];
    let mut table = placed([129, 192]);
    assert_eq!(relay_gone(&mut table, PUBLISHER, 5, &mut out).count, 2);
    assert_eq!(out, [3, 71, 3, 70]);
    assert_eq!(table.masks, [0; 9]);
    assert_eq!(table.order[..2], [129, 192]);
    // Nothing leaves, and they become what they count for.
    let mut table = placed([129, 192]);
    assert_eq!(relay_gone(&mut table, PUBLISHER, 4, &mut out).count, 0);
    assert_eq!(table.order[..2], [1, 0]);
    let mut table = placed([129, 192]);
    assert_eq!(relay_cancel(&mut table, 3, FrontNumber(71)).refusal, 0);
    assert_eq!(table.order[..2], [129, 192]);
    assert_eq!((table.masks[0], table.masks[6]), (1, 1));
    let mut table = placed([129, 192]);
    assert_eq!(relay_cancel(&mut table, 3, FrontNumber(70)).refusal, 0);
    assert_eq!(table.order[..2], [129, 191]);
    assert_eq!((table.masks[0], table.masks[6]), (2, 2));
}

/// A full table with 64 places in a row, but one in a slot that is freed.
fn closes_up(slot: usize, own: u8, base: u8) {
    let mut before = full();
    before.order = std::array::from_fn(|i| base + i as u8);
    before.order[slot] = own;
    let mut expected = before;
    expected.masks = before.masks.map(|mask| mask & !(1 << slot));
    for place in &mut expected.order {
        *place -= u8::from(own < *place);
    }
    let mut table = before;
    let number = PublisherNumber(before.numbers[64 + slot]);
    relay_reply(&mut table, before.places[64 + slot], number);
    assert_eq!(table, expected);
    let mut table = before;
    let number = FrontNumber(before.numbers[slot]);
    relay_cancel(&mut table, before.places[slot], number);
    assert_eq!(table, expected);
}

/// Each of 256 places is freed among each of 256 others.
#[test]
fn every_place_closes_up_every_other() {
    for own in 0..=255 {
        for base in [0, 64, 128, 192] {
            closes_up(0, own, base);
            closes_up(63, own, base);
        }
    }
}

/// Slot 1 is freed, and none is counted: slot 0 stands in both places, and takes
/// the second.
#[test]
fn used_slots_whose_place_is_beyond_the_count() {
    for beyond in [2, 9, 63, 64 + 2, 255] {
        let mut table = placed([0, beyond]);
        table.masks[6] = 0b10;
        let mut out = [-9; 2];
        let mut expected = table;
        let dropped = relay_gone(&mut table, PUBLISHER, 5, &mut out);
        assert_eq!((dropped.refusal, dropped.count, out), (0, 0, [-9; 2]));
        (expected.masks[0], expected.masks[6]) = (0b01, 0);
        expected.order[0] = 1;
        assert_eq!(table, expected);
    }
    // Both are beyond it: slot 0 is counted twice, and slot 1 is not.
    let mut out = [-9; 4];
    let mut table = placed([9, 2]);
    assert_eq!(relay_gone(&mut table, LINK, 3, &mut out[..3]).refusal, 16);
    assert_eq!((table, out), (placed([9, 2]), [-9; 4]));
    assert_eq!(relay_gone(&mut table, LINK, 3, &mut out).count, 2);
    assert_eq!(out, [5, FIRST, 5, FIRST]);
    assert_eq!(
        (table.masks, table.order[..2].to_vec()),
        ([0; 9], vec![9, 2])
    );
}

/// A publisher's slot that is not used: a reply finds it, and closes up by its
/// place; a cancel does not.
#[test]
fn slots_of_a_publisher_that_are_not_used() {
    let mut table = placed([2, 1]);
    table.masks[0] = 0b01;
    assert_eq!(relay_cancel(&mut table, 3, FrontNumber(71)).refusal, 34);
    assert_eq!(table.order[..2], [2, 1]);
    let replied = relay_reply(&mut table, 5, PublisherNumber(FIRST + 1));
    assert_eq!(
        (replied.refusal, replied.link, replied.number.0),
        (0, 3, 71)
    );
    assert_eq!((table.masks[0], table.masks[6]), (0b01, 0b01));
    assert_eq!(table.order[..2], [1, 1]);
}

/// The highest slot has the place, and slot 0 stands where there is none.
#[test]
fn slots_with_the_same_place() {
    let mut out = [0; 6];
    let mut table = placed([0, 0]);
    assert_eq!(relay_gone(&mut table, LINK, 3, &mut out[..3]).refusal, 16);
    assert_eq!(relay_gone(&mut table, LINK, 3, &mut out).count, 2);
    assert_eq!(out, [5, FIRST + 1, 5, FIRST, 0, 0]);
    assert_eq!(table.masks, [0; 9]);
    let mut table = placed([0, 2, 2]);
    assert_eq!(relay_gone(&mut table, LINK, 3, &mut out[..5]).refusal, 16);
    assert_eq!(relay_gone(&mut table, LINK, 3, &mut out).count, 3);
    assert_eq!(out, [5, FIRST, 5, FIRST, 5, FIRST + 2]);
    assert_eq!(table.masks, [0; 9]);
    // Of those that stay, slot 2 takes a place; slot 1 has none, and keeps its byte.
    let mut table = placed([0, 2, 2]);
    assert_eq!(relay_gone(&mut table, PUBLISHER, 0, &mut out).count, 0);
    assert_eq!(table.order[..3], [1, 2, 2]);
    let mut table = placed([66, 1, 1]);
    table.masks[6] = 0b001;
    assert_eq!(relay_gone(&mut table, PUBLISHER, 5, &mut out).count, 2);
    assert_eq!(out[..4], [3, 70, 3, 70]);
    assert_eq!((table.masks[0], table.masks[6]), (0b110, 0));
    assert_eq!(table.order[..3], [66, 1, 0]);
    // One request is freed; the other one with its place stays where it is.
    let mut table = placed([2, 1, 1]);
    assert_eq!(relay_cancel(&mut table, 3, FrontNumber(71)).refusal, 0);
    assert_eq!((table.masks[0], table.masks[6]), (0b101, 0b101));
    assert_eq!(table.order[..3], [1, 1, 1]);
}
