mod ask_by;
mod gone;
mod run_out;

use super::book::Book;
use super::*;
use crate::clock::{Pace, LARGEST_TIME, PACES};
use crate::event::Event;
use crate::generator::Generator;
use crate::traffic::{self, Profile, Traffic};

fn fresh(first: i64) -> Table {
    Table::fresh(first).unwrap_or_else(|_| panic!("{first} refused"))
}

/// A table in which publisher p has `loads[p]` requests, numbered from 1 by
/// front links 0 to 7 in turn.
fn with_loads(loads: [usize; 8]) -> Table {
    let mut table = fresh(1);
    for (publisher, load) in loads.into_iter().enumerate() {
        for number in 1..=load {
            let link = publisher as u8;
            let accepted = table.ask(link, number as i64, publisher as u8);
            assert_eq!(accepted, Ok(number as i64));
        }
    }
    table
}

#[test]
fn the_first_number_is_at_least_1() {
    for first in [0, -1, -5, i64::MIN] {
        assert_eq!(Table::fresh(first).err(), Some(Refusal::OutOfRange));
    }
    for first in [1, 7, i64::MAX] {
        assert_eq!(fresh(first).ask(0, 1, 0), Ok(first));
    }
}

#[test]
fn the_loads_of_document_01() {
    let mut table = with_loads([16, 16, 12, 0, 0, 0, 0, 0]);
    assert_eq!(table.ask(9, 1, 2), Err(Refusal::SharedRoomGone));
    assert_eq!(table.ask(9, 1, 0), Err(Refusal::LoadFull));
    for number in 1..=4 {
        assert_eq!(table.ask(9, number, 3), Ok(number));
    }
    assert_eq!(table.ask(9, 5, 3), Err(Refusal::SharedRoomGone));
    assert_eq!(table.cancel(0, 5), Ok((0, 5)));
    assert_eq!(table.ask(9, 5, 3), Ok(5));
}

#[test]
fn every_reserve_can_be_used() {
    let mut table = with_loads([16, 16, 12, 0, 0, 0, 0, 0]);
    for publisher in 3..8 {
        for number in 1..=4 {
            assert_eq!(table.ask(20 + publisher, number, publisher), Ok(number));
        }
    }
    assert_eq!(table.count(), ROOM);
    for publisher in 2..8 {
        let refused = table.ask(30, 1, publisher);
        assert_eq!(refused, Err(Refusal::SharedRoomGone));
    }
}

#[test]
fn the_order_of_refusals() {
    let mut table = with_loads([16, 16, 12, 0, 0, 0, 0, 0]);
    assert_eq!(table.ask(32, 0, 0), Err(Refusal::OutOfRange));
    assert_eq!(table.ask(0, 0, 8), Err(Refusal::OutOfRange));
    assert_eq!(table.ask(0, 0, 0), Err(Refusal::QueryNumberZero));
    assert_eq!(table.ask(0, 1, 0), Err(Refusal::InFlightAlready));
    assert_eq!(table.ask(0, 1, 2), Err(Refusal::InFlightAlready));
    assert_eq!(table.reply(8, 0), Err(Refusal::OutOfRange));
    assert_eq!(table.reply(7, 0), Err(Refusal::QueryNumberZero));
    assert_eq!(table.reply(7, -1), Err(Refusal::NotInFlight));
    assert_eq!(table.cancel(32, 0), Err(Refusal::OutOfRange));
    assert_eq!(table.cancel(31, 0), Err(Refusal::QueryNumberZero));
    assert_eq!(table.cancel(31, 1), Err(Refusal::NotInFlight));
}

#[test]
fn numbers_in_flight_are_passed_over() {
    let mut table = with_loads([4, 0, 0, 0, 0, 0, 0, 0]);
    assert_eq!(table.reply(0, 3), Ok((0, 3)));
    // As if the numbering had gone nearly round: no list of calls that can
    // be run gets here from a fresh table.
    table.next[0] = i64::MAX;
    assert_eq!(table.ask(1, 1, 0), Ok(i64::MAX));
    assert_eq!(table.ask(1, 2, 0), Ok(3));
    assert_eq!(table.ask(1, 3, 0), Ok(5));
    assert_eq!(table.ask(1, 4, 1), Ok(1));
}

/// Moves a publisher's numbering back to just before a request in flight, or
/// to the largest numbers, on both sides alike.
fn turn_numbering(generator: &mut Generator, table: &mut Table, book: &mut Book) {
    let publisher = generator.below(8) as u8;
    let of_publisher = |request: &&Request| request.publisher.0 == publisher;
    let in_flight = table.in_flight().find(of_publisher);
    let last = match in_flight {
        Some(request) if request.publisher.1 > 2 => request.publisher.1 - 2,
        _ => i64::MAX - generator.below(3) as i64,
    };
    table.next[usize::from(publisher)] = successor(last);
    book.last[usize::from(publisher)] = Some(last);
}

/// What the book keeps of each request, oldest accepted first.
fn entries(table: &Table) -> Vec<(End, End, Option<u64>)> {
    let slots = table.oldest_first(|_| true);
    let requests = slots.iter().filter_map(|&slot| table.slots[slot]);
    requests
        .map(|request| (request.front, request.publisher, request.deadline()))
        .collect()
}

/// One call on both, each lent a slice with the same content; compares the
/// answers, the slices, the loads, the requests and the latest time.
fn call_both(table: &mut Table, book: &mut Book, event: Event, lent: &[i64]) {
    let (mut ours, mut theirs) = (lent.to_vec(), lent.to_vec());
    let answer = event.call(table, &mut ours);
    assert_eq!(answer, book.call(event, &mut theirs), "{event:?}");
    assert_eq!(ours, theirs, "{event:?}");
    let loads: [usize; 8] = std::array::from_fn(|p| book.load(p as u8));
    assert_eq!(table.loads, loads, "{event:?}");
    assert_eq!(table.count(), book.entries.len());
    let of_book = book.entries.iter().map(|entry| {
        let publisher = (entry.publisher, entry.publisher_number);
        ((entry.link, entry.front_number), publisher, entry.deadline)
    });
    assert!(entries(table).into_iter().eq(of_book), "{event:?}");
    assert_eq!(table.latest_time(), book.latest_time_seen, "{event:?}");
}

/// Runs both on the same random calls.
fn compare(seed: u64, first: i64, profile: Profile, calls: u32) {
    let mut generator = Generator::new(seed);
    let mut traffic = Traffic::new(seed, profile);
    let (mut table, mut book) = (fresh(first), Book::fresh(first).ok().unwrap());
    for _ in 0..calls {
        if generator.below(200) == 0 {
            turn_numbering(&mut generator, &mut table, &mut book);
        }
        let event = traffic.event(&table);
        let length = generator.pick(&[0, 1, 2, 9, 31, 32, 128, 130]);
        let lent: Vec<i64> = (0..length).map(|_| generator.draw() as i64).collect();
        call_both(&mut table, &mut book, event, &lent);
    }
}

#[test]
fn agrees_with_the_book() {
    let profiles = [traffic::CROWDED, traffic::MIXED, traffic::ROUGH];
    for (seed, first) in [1, 7, i64::MAX, i64::MAX - 30].into_iter().enumerate() {
        for (turn, profile) in profiles.into_iter().enumerate() {
            compare((3 * seed + turn) as u64, first, profile, 40_000);
        }
    }
}

#[test]
fn agrees_with_the_book_by_every_clock() {
    let profiles = [traffic::CROWDED, traffic::MIXED, traffic::ROUGH];
    for (seed, pace) in (50..).zip(PACES.into_iter().chain([Pace::Any])) {
        for (turn, profile) in (0..).zip(profiles) {
            let first = [1, i64::MAX - 30, 7][turn as usize];
            compare(3 * seed + turn, first, profile.by_clock(pace), 20_000);
        }
    }
}

/// Any time near `turn`; some are far off or refused, but only in the last
/// calls is the largest seen, for then no clock runs on.
fn blind_time(generator: &mut Generator, turn: u64) -> u64 {
    match generator.below(100) {
        0 => 0,
        1 => generator.draw() | 1 << 62,
        2 => LARGEST_TIME + generator.below(3) + u64::from(turn < 95_000),
        _ => turn + generator.below(40),
    }
}

/// Calls with arguments taken blindly from small ranges, so that nothing
/// depends on what the traffic thinks worth asking.
#[test]
fn agrees_with_the_book_on_blind_calls() {
    let mut generator = Generator::new(99);
    let (mut table, mut book) = (fresh(1), Book::fresh(1).ok().unwrap());
    for turn in 0..100_000 {
        let link = generator.below(34) as u8;
        let publisher = generator.below(9) as u8;
        let number = generator.below(12) as i64 - 4;
        let last = book.last.get(usize::from(publisher)).copied().flatten();
        let time = blind_time(&mut generator, turn);
        let event = match generator.below(80) {
            40..=41 => Event::RunOut(time),
            42.. => {
                let timeout = generator.pick(&[0, 1, 3, 9, 30, 90, 1 << 31, u32::MAX]);
                Event::AskBy(link, number, publisher, time, timeout)
            }
            0 => Event::Gone(Side::Front, link),
            1 => Event::Gone(Side::Publisher, publisher),
            2..=9 => Event::Cancel(link, number),
            10..=19 => Event::Reply(publisher, last.unwrap_or(8) - number),
            _ => Event::Ask(link, number, publisher),
        };
        call_both(&mut table, &mut book, event, &[7; 20]);
    }
}
