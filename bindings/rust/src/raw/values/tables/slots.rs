//! Which slot a request takes, that it stays there, and what is left of it when
//! it is freed.

use super::*;

fn ask(table: &mut Table, link: u8, front: i64, publisher: u8) -> u8 {
    relay_ask(table, link, FrontNumber(front), publisher).refusal
}

fn reply(table: &mut Table, publisher: u8, number: i64) -> u8 {
    relay_reply(table, publisher, PublisherNumber(number)).refusal
}

fn cancel(table: &mut Table, link: u8, front: i64) -> u8 {
    relay_cancel(table, link, FrontNumber(front)).refusal
}

/// 64 requests that were asked: request i, from 0 on, is in slot i.
fn asked() -> Table {
    let mut table = fresh();
    for i in 0..64 {
        let (link, front, publisher, _) = request(i);
        assert_eq!(ask(&mut table, link, front, publisher), 0);
        assert_eq!(table.masks[0], u64::MAX >> (63 - i));
    }
    table
}

/// What a slot holds: link, front number, publisher, publisher number.
fn held(table: &Table, slot: usize) -> (u8, i64, u8, i64) {
    let (link, publisher) = (table.places[slot], table.places[64 + slot]);
    let (front, number) = (table.numbers[slot], table.numbers[64 + slot]);
    (link, front, publisher, number)
}

#[test]
fn a_new_request_takes_the_lowest_free_slot() {
    let mut table = asked();
    for slot in [40, 2, 63, 5] {
        let (link, front, ..) = held(&table, slot);
        assert_eq!(cancel(&mut table, link, front), 0);
    }
    assert_eq!(table.masks[0], !(1 << 2 | 1 << 5 | 1 << 40 | 1 << 63));
    for (front, slot) in [(-1, 2), (-2, 5), (-3, 40), (-4, 63)] {
        let before = table.masks[0];
        let (publisher, next) = (slot as u8 % 8, table.numbers[128 + slot % 8]);
        assert_eq!(ask(&mut table, 30, front, publisher), 0);
        assert_eq!(table.masks[0], before | 1 << slot);
        assert_eq!(u32::from(table.order[slot]), before.count_ones());
        assert_eq!(held(&table, slot), (30, front, publisher, next));
    }
}

/// Half of the slots are freed, in all four ways; nothing of numbers and places
/// is written, those of the freed slots included.
#[test]
fn a_request_stays_in_its_slot() {
    let before = asked();
    let mut table = before;
    let mut out = [0; 128];
    assert_eq!(relay_gone(&mut table, PUBLISHER, 3, &mut out).count, 8);
    assert_eq!(relay_gone(&mut table, LINK, 6, &mut out).count, 2);
    for slot in (0..64).step_by(4) {
        let (link, front, publisher, number) = held(&before, slot);
        let refusal = match slot % 8 {
            0 => reply(&mut table, publisher, number),
            _ => cancel(&mut table, link, front),
        };
        assert_eq!(refusal, 0);
    }
    let gone = (0..64).filter(|i| i % 8 == 3 || i % 32 == 6 || i % 4 == 0);
    let gone = gone.fold(0, |mask, i| mask | 1 << i);
    assert_eq!(table.masks, before.masks.map(|mask| mask & !gone));
    assert_eq!(table.masks[0].count_ones(), 64 - 8 - 2 - 16);
    let left = (0..64).filter(|i| gone >> i & 1 == 0);
    assert!(by_age(&table).into_iter().eq(left));
    assert_eq!(
        (table.numbers, table.places),
        (before.numbers, before.places)
    );
}

/// Each of 64 by a reply and by a cancel.
#[test]
fn a_freed_slot_leaves_every_mask() {
    for i in 0..64 {
        let (link, front, publisher, number) = request(i);
        let mut replied = full();
        assert_eq!(reply(&mut replied, publisher, number), 0);
        is_full_without(&replied, |other| other == i);
        let mut cancelled = full();
        assert_eq!(cancel(&mut cancelled, link, front), 0);
        assert_eq!(cancelled, replied);
    }
}

#[test]
fn freed_slots_leave_every_mask() {
    let mut out = [0; 128];
    for publisher in 0..8 {
        let mut table = full();
        assert_eq!(
            relay_gone(&mut table, PUBLISHER, publisher, &mut out).count,
            8
        );
        is_full_without(&table, |i| request(i).2 == publisher);
        assert_eq!(table.masks[1 + usize::from(publisher)], 0);
    }
    for link in 0..32 {
        let mut table = full();
        assert_eq!(relay_gone(&mut table, LINK, link, &mut out).count, 2);
        is_full_without(&table, |i| request(i).0 == link);
    }
}

/// One after the other, in all four ways, until none is left.
#[test]
fn places_close_up_to_the_last_request() {
    let mut table = full();
    let mut out = [0; 128];
    let mut gone = [false; 64];
    for i in (0..64).map(|i| (i * 37 + 20) % 64).filter(|i| i % 9 != 4) {
        let (link, front, publisher, number) = request(i);
        let refusal = match i % 2 {
            0 => reply(&mut table, publisher, number),
            _ => cancel(&mut table, link, front),
        };
        assert_eq!(refusal, 0);
        gone[i] = true;
        is_full_without(&table, |i| gone[i]);
    }
    // Seven are left, all with other links and publishers.
    for i in [22, 31, 4, 49, 13, 58, 40] {
        let (link, _, publisher, _) = request(i);
        let dropped = match i % 2 {
            0 => relay_gone(&mut table, PUBLISHER, publisher, &mut out),
            _ => relay_gone(&mut table, LINK, link, &mut out),
        };
        assert_eq!((dropped.refusal, dropped.count), (0, 1));
        gone[i] = true;
        is_full_without(&table, |i| gone[i]);
    }
    assert_eq!(table.masks, [0; 9]);
}

#[test]
fn the_order_is_by_acceptance_and_not_by_slot() {
    let mut table = fresh();
    for front in 1..=4 {
        ask(&mut table, 1, front, 2);
    }
    assert_eq!(table.order[..4], [0, 1, 2, 3]);
    cancel(&mut table, 1, 3);
    cancel(&mut table, 1, 1);
    assert_eq!((table.masks[0], table.masks[3]), (0b1010, 0b1010));
    assert_eq!((table.order[1], table.order[3]), (0, 1));
    ask(&mut table, 1, 5, 2);
    ask(&mut table, 1, 6, 0);
    assert_eq!(
        (table.masks[0], table.masks[3], table.masks[1]),
        (0b1111, 0b1011, 0b0100)
    );
    assert_eq!(table.order[..4], [2, 0, 3, 1]);
    assert_eq!(by_age(&table), [1, 3, 0, 2]);
    let mut out = [0; 8];
    let mut other = table;
    assert_eq!(relay_gone(&mut other, PUBLISHER, 2, &mut out).count, 3);
    assert_eq!(out, [1, 2, 1, 4, 1, 5, 0, 0]);
    assert_eq!((other.masks[0], other.order[2]), (0b0100, 0));
    assert_eq!(relay_gone(&mut table, LINK, 1, &mut out).count, 4);
    let numbers = [FIRST + 1, FIRST + 3, FIRST + 4, FIRST];
    assert_eq!(
        out,
        [2, numbers[0], 2, numbers[1], 2, numbers[2], 0, numbers[3]]
    );
}

/// Up and down, and by hand: a publisher's load is nothing but its mask.
#[test]
fn a_load_is_the_count_of_ones() {
    let mut table = fresh();
    for load in 1..=16 {
        assert_eq!(ask(&mut table, 9, load, 3), 0);
        assert_eq!(i64::from(table.masks[4].count_ones()), load);
    }
    assert_eq!(ask(&mut table, 9, 17, 3), 32);
    assert_eq!(reply(&mut table, 3, FIRST + 8), 0);
    assert_eq!(table.masks[4], 0b1111_1110_1111_1111);
    assert_eq!(ask(&mut table, 9, 17, 3), 0);
    assert_eq!(table.masks[4], 0xffff);
    let mut by_hand = fresh();
    by_hand.masks[1] = 0xffff << 40;
    assert_eq!(ask(&mut by_hand, 0, 1, 0), 32);
    by_hand.masks[1] = 0x7fff << 40;
    assert_eq!(ask(&mut by_hand, 0, 1, 0), 0);
    // 16, 16, 16 and 4 reserved for each of four others: nothing is left beyond a reserve.
    by_hand = fresh();
    (by_hand.masks[1], by_hand.masks[2]) = (0xffff, 0xffff << 16);
    (by_hand.masks[3], by_hand.masks[4]) = (0xfff << 32, 0b111 << 48);
    assert_eq!(ask(&mut by_hand, 0, 1, 2), 33);
    by_hand.masks[3] &= by_hand.masks[3] - 1;
    assert_eq!(ask(&mut by_hand, 0, 1, 2), 0);
}

#[test]
fn a_refused_fresh_leaves_all_arrays() {
    let patterned = Table {
        masks: std::array::from_fn(|i| !(i as u64)),
        numbers: std::array::from_fn(|i| -(i as i64)),
        places: std::array::from_fn(|i| i as u8),
        order: std::array::from_fn(|i| 255 - i as u8),
        times: std::array::from_fn(|i| u64::MAX - i as u64),
    };
    for before in [patterned, full(), asked(), EMPTY] {
        for first in [0, -1, i64::MIN] {
            let mut table = before;
            assert_eq!(relay_fresh(&mut table, PublisherNumber(first)), 30);
            assert_eq!(table, before);
        }
    }
}

#[test]
fn refused_calls_leave_every_byte() {
    let before = asked();
    let mut table = before;
    assert_eq!(ask(&mut table, 32, 0, 0), 30);
    assert_eq!(ask(&mut table, 0, 0, 8), 30);
    assert_eq!(ask(&mut table, 0, 0, 0), 12);
    assert_eq!(ask(&mut table, 5, 1005, 0), 31);
    assert_eq!(ask(&mut table, 5, 1, 0), 33);
    assert_eq!(reply(&mut table, 8, 0), 30);
    assert_eq!(reply(&mut table, 0, 0), 12);
    assert_eq!(reply(&mut table, 0, FIRST + 8), 34);
    assert_eq!(cancel(&mut table, 32, 0), 30);
    assert_eq!(cancel(&mut table, 0, 0), 12);
    assert_eq!(cancel(&mut table, 0, 1001), 34);
    let mut out = [-9; 15];
    assert_eq!(relay_gone(&mut table, LINK, 32, &mut out).refusal, 30);
    assert_eq!(relay_gone(&mut table, LINK, 5, &mut out[..3]).refusal, 16);
    assert_eq!(relay_gone(&mut table, PUBLISHER, 8, &mut out).refusal, 30);
    assert_eq!(relay_gone(&mut table, PUBLISHER, 7, &mut out).refusal, 16);
    assert_eq!((table, out), (before, [-9; 15]));
    let mut table = fresh();
    for front in 1..=16 {
        ask(&mut table, 0, front, 0);
    }
    let before = table;
    assert_eq!(ask(&mut table, 0, 17, 0), 32);
    assert_eq!(table, before);
}
