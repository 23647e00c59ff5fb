//! A gone peer: the same number on either side, each side's limit, and rooms that
//! are just too short or just enough.

use super::*;

/// The slice of each call, of which a room is lent.
type Out = [i64; 130];
const UNTOUCHED: Out = [-9; 130];

/// What is to be written for a peer of `full`.
fn ends(publisher: bool, number: u8) -> Vec<i64> {
    let end = |i| match (publisher, request(i)) {
        (PUBLISHER, (link, front, p, _)) => (p == number).then_some([link.into(), front]),
        (LINK, (link, _, p, n)) => (link == number).then_some([p.into(), n]),
    };
    (0..64).filter_map(end).flatten().collect()
}

fn is_of(publisher: bool, number: u8, i: usize) -> bool {
    let (link, _, p, _) = request(i);
    number == if publisher { p } else { link }
}

/// A call into a room: its refusal and its count, the table and the slice.
fn gone(mut table: Table, publisher: bool, number: u8, room: usize) -> (u8, usize, Table, Out) {
    let mut out = UNTOUCHED;
    let dropped = relay_gone(&mut table, publisher, number, &mut out[..room]);
    (dropped.refusal, dropped.count, table, out)
}

/// Refused, and every byte is as it was.
fn is_refused(table: Table, publisher: bool, number: u8, room: usize, refusal: u8) {
    let answer = gone(table, publisher, number, room);
    assert_eq!(answer, (refusal, 0, table, UNTOUCHED));
}

/// `count` requests of link 9 at all publishers, or of publisher 5 from two links.
fn with(publisher: bool, count: usize) -> Table {
    let mut table = fresh();
    for i in 0..count {
        let (link, p) = if publisher {
            (9 + i % 2, 5)
        } else {
            (9, i % 8)
        };
        let front = FrontNumber(1 + i as i64);
        assert_eq!(relay_ask(&mut table, link as u8, front, p as u8).refusal, 0);
    }
    table
}

/// A peer of `full` into a room that is enough: its ends are written, oldest
/// first, nothing past them is, and no other request is freed.
fn is_freed(publisher: bool, number: u8, room: usize) {
    let ends = ends(publisher, number);
    let (refusal, count, table, out) = gone(full(), publisher, number, room);
    assert_eq!((refusal, count), (0, ends.len() / 2));
    assert_eq!(out[..ends.len()], ends);
    assert_eq!(out[ends.len()..], UNTOUCHED[ends.len()..]);
    is_full_without(&table, |i| is_of(publisher, number, i));
}

/// All numbers, of which 7 and 31 are the last in range; 30 comes before 16, and
/// what a number is on the other side does not matter.
#[test]
fn each_side_has_its_own_limit() {
    for (publisher, limit, needed) in [(PUBLISHER, 7, 16), (LINK, 31, 4)] {
        for number in 0..=255 {
            for room in [0, 1, 3, 4, 15, 16, 17, 128, 130] {
                match room {
                    _ if number > limit => is_refused(full(), publisher, number, room, 30),
                    _ if room < needed => is_refused(full(), publisher, number, room, 16),
                    _ => is_freed(publisher, number, room),
                }
            }
        }
    }
}

/// In `full` link p asked publisher p alone, and publisher p was asked by others
/// too: the two calls free requests of their own, and in turn each request once.
#[test]
fn the_same_number_on_either_side() {
    for p in 0..8 {
        for sides in [[LINK, PUBLISHER], [PUBLISHER, LINK]] {
            let mut table = full();
            let counts = sides.map(|side| {
                let (refusal, count, after, _) = gone(table, side, p, 128);
                assert_eq!(refusal, 0);
                table = after;
                count
            });
            let expected = if sides[0] == LINK { [2, 6] } else { [8, 0] };
            assert_eq!(counts, expected);
            is_full_without(&table, |i| is_of(PUBLISHER, p, i));
        }
    }
}

/// Link 5 has two requests, publisher 5 three, and one is of both: rooms that fit
/// the one do not fit the other.
#[test]
fn the_count_is_that_of_the_side() {
    let mut table = fresh();
    for (link, front, publisher) in [(6, 60, 5), (5, 50, 5), (5, 51, 4), (3, 30, 5)] {
        relay_ask(&mut table, link, FrontNumber(front), publisher);
    }
    is_refused(table, LINK, 5, 3, 16);
    is_refused(table, PUBLISHER, 5, 4, 16);
    is_refused(table, PUBLISHER, 5, 5, 16);
    let (refusal, count, left, out) = gone(table, LINK, 5, 4);
    assert_eq!(
        (refusal, count, out[..4].to_vec()),
        (0, 2, vec![5, FIRST + 1, 4, FIRST])
    );
    assert_eq!(
        (left.masks[0], left.masks[5], left.masks[6]),
        (0b1001, 0, 0b1001)
    );
    let (refusal, count, left, out) = gone(table, PUBLISHER, 5, 6);
    assert_eq!(
        (refusal, count, out[..6].to_vec()),
        (0, 3, vec![6, 60, 5, 50, 3, 30])
    );
    assert_eq!(
        (left.masks[0], left.masks[5], left.masks[6]),
        (0b0100, 0b0100, 0)
    );
}

/// As many as a peer can have: 64 of a link, 16 of a publisher.
#[test]
fn two_numbers_for_each_are_enough_and_one_less_is_not() {
    for (publisher, number, most) in [(LINK, 9, 64), (PUBLISHER, 5, 16)] {
        for count in 0..=most {
            let table = with(publisher, count);
            if count > 0 {
                is_refused(table, publisher, number, 2 * count - 1, 16);
                is_refused(table, publisher, number, 0, 16);
            }
            for room in [2 * count, 2 * count + 1, 130] {
                let (refusal, freed, table, out) = gone(table, publisher, number, room);
                assert_eq!((refusal, freed, table.masks), (0, count, [0; 9]));
                assert!(out[..2 * count].iter().all(|&n| n != -9));
                assert_eq!(out[2 * count..], UNTOUCHED[2 * count..]);
            }
        }
    }
}

/// The second time it has no request, which needs no room. A lost publisher's
/// next number stays, and is given to the next request.
#[test]
fn a_peer_gone_twice() {
    for (publisher, number) in [(LINK, 9), (PUBLISHER, 5)] {
        let table = with(publisher, 16);
        let (_, count, mut table, _) = gone(table, publisher, number, 32);
        assert_eq!(count, 16);
        for room in [0, 130] {
            let again = gone(table, publisher, number, room);
            assert_eq!(again, (0, 0, table, UNTOUCHED));
        }
        let next = table.numbers[128 + 5];
        assert_eq!(next, FIRST + if publisher { 16 } else { 2 });
        let asked = relay_ask(&mut table, 9, FrontNumber(1), 5);
        assert_eq!((asked.refusal, asked.number.0), (0, next));
    }
}
