//! Deadlines, and the latest time seen: where the calls write them, which of them
//! have come, and what is left of them.

use super::*;

/// The slice of each run-out, of which a room is lent.
type Out = [i64; 130];
const UNTOUCHED: Out = [-9; 130];

fn ask_by(table: &mut Table, front: i64, publisher: u8, time: u64, timeout: u32) -> u8 {
    relay_ask_by(table, 3, FrontNumber(front), publisher, time, timeout).refusal
}

/// A call into a room: its refusal and its count, the table and the slice.
fn run_out(mut table: Table, time: u64, room: usize) -> (u8, usize, Table, Out) {
    let mut out = UNTOUCHED;
    let dropped = relay_run_out(&mut table, time, &mut out[..room]);
    (dropped.refusal, dropped.count, table, out)
}

/// Refused, and every byte is as it was.
fn is_refused(table: Table, time: u64, room: usize, refusal: u8) {
    let answer = run_out(table, time, room);
    assert_eq!(answer, (refusal, 0, table, UNTOUCHED));
}

/// A table that has seen a time, with one request in slot 0 and its deadline.
fn one(seen: u64, deadline: u64) -> Table {
    let mut table = fresh();
    assert_eq!(ask_by(&mut table, 70, 5, 0, 0), 0);
    (table.times[0], table.times[64]) = (deadline, seen);
    table
}

/// Whatever stood there: an ask writes its own slot's deadline, and the time.
#[test]
fn asks_write_their_deadline_and_the_time() {
    let mut table = fresh();
    table.times[..64].fill(u64::MAX);
    let asks = [
        ((7, 5), (12, 7)),
        ((9, 0), (0, 9)),
        ((0, 0), (0, 9)),
        ((0, u32::MAX), (9 + 0xffff_ffff, 9)),
        ((LAST_TIME, 1), (1 << 62, LAST_TIME)),
        ((3, u32::MAX), (LAST_TIME + 0xffff_ffff, LAST_TIME)),
    ];
    for (slot, ((time, timeout), (deadline, seen))) in asks.into_iter().enumerate() {
        let mut expected = table.times;
        (expected[slot], expected[64]) = (deadline, seen);
        assert_eq!(ask_by(&mut table, 1 + slot as i64, 5, time, timeout), 0);
        assert_eq!(table.times, expected);
    }
}

#[test]
fn an_old_ask_is_one_at_time_0_without_a_timeout() {
    let (mut table, mut other) = (one(40, 90), one(40, 90));
    (table.times[1], other.times[1]) = (50, 60);
    assert_eq!(relay_ask(&mut table, 3, FrontNumber(71), 2).refusal, 0);
    assert_eq!(ask_by(&mut other, 71, 2, 0, 0), 0);
    assert_eq!((table, table.times[1]), (other, 0));
    assert_eq!((table.times[0], table.times[64]), (90, 40));
}

/// Reply, cancel and gone: times of freed slots stay too.
#[test]
fn the_other_calls_leave_all_times() {
    let times = full().times;
    let mut table = full();
    let (_, _, publisher, number) = request(40);
    relay_reply(&mut table, publisher, PublisherNumber(number));
    let (link, front, ..) = request(9);
    relay_cancel(&mut table, link, FrontNumber(front));
    relay_gone(&mut table, LINK, 30, &mut [0; 4]);
    relay_gone(&mut table, PUBLISHER, 6, &mut [0; 16]);
    assert_eq!(table.masks[0].count_ones(), 64 - 1 - 1 - 2 - 6);
    assert_eq!(table.times, times);
}

/// Of `full`, whose deadlines come one after the other in the order of acceptance:
/// all up to each time are written, oldest first, and nothing else is freed.
#[test]
fn those_at_or_before_the_time_are_freed() {
    for count in 0..=64 {
        let time = deadline(0) + count as u64 - 1;
        for room in [2 * count, 2 * count + 1, 130] {
            let (refusal, freed, table, out) = run_out(full(), time, room);
            assert_eq!((refusal, freed), (0, count));
            let ends = (0..count).map(request).flat_map(|r| [r.0.into(), r.1]);
            assert!(ends.eq(out[..2 * count].iter().copied()));
            assert_eq!(out[2 * count..], UNTOUCHED[2 * count..]);
            is_full_without(&table, |i| i < count);
            assert_eq!(table.times[..64], full().times[..64]);
            assert_eq!(table.times[64], time);
        }
    }
}

/// Neither the slots nor the deadlines say which end comes first.
#[test]
fn the_order_is_that_of_acceptance() {
    let mut table = full();
    for i in 0..64 {
        table.times[slot(i)] = 4000 - i as u64;
    }
    let (refusal, count, left, out) = run_out(table, 3999, 128);
    assert_eq!((refusal, count), (0, 63));
    assert_eq!(out[..4], [1, 1001, 2, 1002]);
    assert_eq!(out[124..], [31, 1063, -9, -9, -9, -9]);
    is_full_without(&left, |i| i > 0);
}

#[test]
fn too_short_a_slice_leaves_every_byte() {
    for count in 1..=64 {
        let time = deadline(count - 1);
        for room in [0, 1, count, 2 * count - 1] {
            is_refused(full(), time, room, 16);
        }
    }
    let (refusal, count, ..) = run_out(full(), deadline(0) - 1, 0);
    assert_eq!((refusal, count), (0, 0));
}

#[test]
fn times_out_of_range() {
    for time in [1 << 62, (1 << 62) + 1, 1 << 63, u64::MAX] {
        // It comes before the room, which is too short for those of `full`.
        is_refused(full(), time, 0, 30);
        is_refused(full(), time, 128, 30);
        let mut table = full();
        relay_reply(&mut table, 0, PublisherNumber(2000));
        let before = table;
        // And before 12 and 31.
        assert_eq!(ask_by(&mut table, 0, 0, time, 9), 30);
        assert_eq!(ask_by(&mut table, 1003, 0, time, 0), 30);
        assert_eq!(ask_by(&mut table, 1, 0, time, 9), 30);
        assert_eq!(table, before);
        assert_eq!(ask_by(&mut table, 1, 0, LAST_TIME, 9), 0);
        assert_eq!(table.times[64], LAST_TIME);
    }
    let (refusal, count, table, _) = run_out(full(), LAST_TIME, 128);
    assert_eq!((refusal, count, table.masks), (0, 64, [0; 9]));
}

/// A refused ask does not see its time, whatever it is refused for.
#[test]
fn refused_asks_leave_the_times() {
    let mut table = full();
    table.masks[0] &= !1;
    let before = table;
    let refused = [(1, 8, 30), (0, 5, 12), (1003, 5, 31), (1, 0, 33)];
    for (front, publisher, refusal) in refused {
        assert_eq!(ask_by(&mut table, front, publisher, 9000, 9), refusal);
        assert_eq!(table, before);
    }
}

/// The latest time seen counts, and stays.
#[test]
fn a_clock_that_goes_back() {
    for time in [0, 1, 49, 50] {
        let (refusal, count, table, out) = run_out(one(50, 50), time, 2);
        assert_eq!((refusal, count, out[..2].to_vec()), (0, 1, vec![3, 70]));
        assert_eq!((table.masks[0], table.times[64]), (0, 50));
        let (refusal, count, table, _) = run_out(one(50, 51), time, 2);
        assert_eq!((refusal, count), (0, 0));
        assert_eq!((table.masks[0], table.times[64]), (1, 50));
    }
    let mut table = one(50, 51);
    assert_eq!(ask_by(&mut table, 71, 5, 20, 10), 0);
    assert_eq!((table.times[1], table.times[64]), (60, 50));
}

/// Slots that are not used have deadlines too, which mean nothing.
#[test]
fn deadlines_of_slots_that_are_not_used() {
    let mut table = one(0, 0);
    table.times[1..64].fill(1);
    let (refusal, count, left, _) = run_out(table, LAST_TIME, 0);
    table.times[64] = LAST_TIME;
    assert_eq!((refusal, count, left), (0, 0, table));
}

/// Contents that no call writes: times seen of 2^62 and more count as the largest
/// one, and deadlines past what an ask gives never come.
#[test]
fn times_that_no_call_has_written() {
    for seen in [1 << 62, 1 << 63, u64::MAX] {
        let (refusal, count, table, _) = run_out(one(seen, LAST_TIME), 0, 2);
        assert_eq!((refusal, count, table.times[64]), (0, 1, LAST_TIME));
        for deadline in [0, 1 << 62, 1 << 63, u64::MAX] {
            let (refusal, count, table, _) = run_out(one(seen, deadline), LAST_TIME, 2);
            assert_eq!((refusal, count), (0, 0));
            assert_eq!((table.masks[0], table.times[64]), (1, LAST_TIME));
            is_refused(one(seen, deadline), 1 << 62, 2, 30);
        }
        let mut table = one(seen, 0);
        assert_eq!(ask_by(&mut table, 71, 5, 0, u32::MAX), 0);
        assert_eq!(table.times[1], LAST_TIME + 0xffff_ffff);
        assert_eq!(table.times[64], LAST_TIME);
        is_refused(one(seen, 1), 0, 1, 16);
    }
}
