//! The one call for a gone peer of either side (document 02, A4).

use super::*;

/// What the lent slices hold before a call.
const LENT: i64 = -99;

/// Link and publisher 3 both have requests, one with each other; so have link
/// 7, publisher 5 and link 31.
fn both_sides() -> Table {
    let mut table = fresh(40);
    for (link, number, publisher, expected) in [
        (3, 1, 5, 40),
        (7, 1, 3, 40),
        (3, i64::MIN, 3, 41),
        (31, -1, 3, 42),
        (3, i64::MAX, 0, 40),
        (31, 7, 5, 41),
    ] {
        assert_eq!(table.ask(link, number, publisher), Ok(expected));
    }
    table
}

/// The peers of `both_sides` with their lists.
const LISTS: [(Side, u8, &[i64]); 9] = [
    (Side::Front, 3, &[5, 40, 3, 41, 0, 40]),
    (Side::Front, 7, &[3, 40]),
    (Side::Front, 31, &[3, 42, 5, 41]),
    (Side::Front, 0, &[]),
    (Side::Front, 5, &[]),
    (Side::Publisher, 0, &[3, i64::MAX]),
    (Side::Publisher, 3, &[7, 1, 3, i64::MIN, 31, -1]),
    (Side::Publisher, 5, &[3, 1, 31, 7]),
    (Side::Publisher, 7, &[]),
];

/// Refused with `refusal`: neither the slice nor the table is another.
fn assert_refused(table: &mut Table, (side, number): (Side, u8), length: usize, refusal: Refusal) {
    let (before, mut ends) = (table.clone(), vec![LENT; length]);
    let answer = table.gone(side, number, &mut ends);
    assert_eq!(answer, Err(refusal), "{side:?} {number} {length}");
    assert_eq!(ends, vec![LENT; length]);
    assert!(*table == before, "{side:?} {number} {length}");
}

#[test]
fn the_list_the_count_and_what_lies_past_the_list() {
    for (side, number, list) in LISTS {
        for length in list.len()..=2 * ROOM + 3 {
            let (mut table, mut ends) = (both_sides(), vec![LENT; length]);
            let answer = table.gone(side, number, &mut ends);
            assert_eq!(answer, Ok(list.len() / 2));
            assert_eq!(ends[..list.len()], *list);
            assert!(ends[list.len()..].iter().all(|&number| number == LENT));
        }
    }
}

/// One number less than two for each is too small, and so is all below.
#[test]
fn a_slice_too_small_is_16_and_changes_nothing() {
    let mut table = both_sides();
    for (side, number, list) in LISTS {
        for length in 0..list.len() {
            assert_refused(&mut table, (side, number), length, Refusal::BufferTooSmall);
        }
    }
    assert!(table == both_sides());
}

#[test]
fn a_number_beyond_the_side_is_30_whatever_the_slice() {
    let mut table = both_sides();
    for (side, peers) in [(Side::Front, 32), (Side::Publisher, 8)] {
        for number in peers..=255 {
            for length in 0..=2 * ROOM + 2 {
                assert_refused(&mut table, (side, number), length, Refusal::OutOfRange);
            }
        }
        for number in 0..peers {
            let answer = fresh(1).gone(side, number, &mut []);
            assert_eq!(answer, Ok(0));
        }
    }
}

/// The others keep all they have; what was freed can be asked, and the
/// numbering of every publisher goes on.
#[test]
fn only_the_requests_of_the_peer_are_freed() {
    for (side, number, list) in LISTS {
        let (mut table, before) = (both_sides(), both_sides());
        table.gone(side, number, &mut [0; 6]).unwrap();
        assert_eq!(table.gone(side, number, &mut []), Ok(0));
        assert_eq!(table.next, before.next);
        assert_eq!(table.count() + list.len() / 2, before.count());
        for request in before.in_flight() {
            let (link, front_number) = request.front;
            let (publisher, publisher_number) = request.publisher;
            if request.end(side).0 == number {
                let late = table.reply(publisher, publisher_number);
                assert_eq!(late, Err(Refusal::NotInFlight));
                let late = table.cancel(link, front_number);
                assert_eq!(late, Err(Refusal::NotInFlight));
                table.ask(link, front_number, 6).unwrap();
            } else {
                assert_eq!(table.cancel(link, front_number), Ok(request.publisher));
            }
        }
    }
}

#[test]
fn oldest_accepted_first_though_slots_are_used_again() {
    let mut table = with_loads([4, 0, 0, 0, 0, 0, 0, 0]);
    assert_eq!(table.cancel(0, 1), Ok((0, 1)));
    assert_eq!(table.reply(0, 3), Ok((0, 3)));
    assert_eq!(table.ask(0, -8, 5), Ok(1));
    assert_eq!(table.ask(0, -9, 0), Ok(5));
    assert_eq!(table.ask(0, 77, 5), Ok(2));
    let (mut by_link, mut by_publisher) = ([0; 10], [0; 6]);
    assert_eq!(table.clone().gone(Side::Front, 0, &mut by_link), Ok(5));
    assert_eq!(by_link, [0, 2, 0, 4, 5, 1, 0, 5, 5, 2]);
    let count = table.gone(Side::Publisher, 0, &mut by_publisher);
    assert_eq!(count, Ok(3));
    assert_eq!(by_publisher, [0, 2, 0, 4, 0, -9]);
}

#[test]
fn a_whole_table_goes_with_one_link_or_with_eight_publishers() {
    let mut table = fresh(1);
    for turn in 0..2 {
        for number in 1..=64 {
            let publisher = (number % 8) as u8;
            table.ask(31, number, publisher).unwrap();
        }
        assert_eq!(table.count(), ROOM);
        if turn == 0 {
            let link = (Side::Front, 31);
            assert_refused(&mut table, link, 2 * ROOM - 1, Refusal::BufferTooSmall);
            assert_eq!(table.gone(Side::Front, 31, &mut [0; 2 * ROOM]), Ok(ROOM));
        } else {
            for publisher in 0..8 {
                assert_eq!(table.gone(Side::Publisher, publisher, &mut [0; 16]), Ok(8));
            }
        }
        assert_eq!(table.count(), 0);
    }
}

/// Lists of calls rich in gone peers, few of each side and with the same
/// numbers. The slices have all lengths, most of them near what is needed.
#[test]
fn agrees_with_the_book_with_slices_of_all_lengths() {
    let mut generator = Generator::new(404);
    for (first, peers) in [(1, 2), (7, 3), (i64::MAX - 3, 5), (1, 9), (7, 33)] {
        let (mut table, mut book) = (fresh(first), Book::fresh(first).ok().unwrap());
        for _ in 0..20_000 {
            let event = blind(&mut generator, peers, &book);
            let length = match event {
                Event::Gone(side, number) if generator.below(4) > 0 => {
                    let of_peer = |request: &&Request| request.end(side).0 == number;
                    let needed = 2 * table.in_flight().filter(of_peer).count();
                    (needed + generator.below(5) as usize).saturating_sub(2)
                }
                _ => generator.below(2 * ROOM as u64 + 3) as usize,
            };
            let lent: Vec<i64> = (0..length).map(|_| generator.draw() as i64).collect();
            call_both(&mut table, &mut book, event, &lent);
        }
    }
}

fn blind(generator: &mut Generator, peers: u64, book: &Book) -> Event {
    let link = generator.below(peers) as u8;
    let publisher = generator.below(peers.min(9)) as u8;
    let number = generator.below(40) as i64 - 9;
    let last = book.last.get(usize::from(publisher)).copied().flatten();
    match generator.below(12) {
        0 => Event::Gone(Side::Front, link),
        1 => Event::Gone(Side::Publisher, publisher),
        2 => Event::Cancel(link, number),
        3 => Event::Reply(
            publisher,
            last.map_or(number, |last| last.saturating_sub(number)),
        ),
        _ => Event::Ask(link, number, publisher),
    }
}
