//! Deadlines through the wrapper (document 02, A2).

use relay::{FrontNumber, Peer, PublisherNumber, Refusal, Table, ALL_ENDS};
use std::num::NonZeroU32;

/// The last time that is in range.
const LAST: u64 = (1 << 62) - 1;

fn empty() -> Table {
    Table::new(PublisherNumber(1)).unwrap()
}

/// A request of link 3 to publisher 0; a timeout of 0 is none.
fn ask_by(
    table: &mut Table,
    front: i64,
    time: u64,
    timeout: u32,
) -> Result<PublisherNumber, Refusal> {
    table.ask_by(3, FrontNumber(front), 0, time, NonZeroU32::new(timeout))
}

/// A table with one request, 77.
fn one(time: u64, timeout: u32) -> Table {
    let mut table = empty();
    ask_by(&mut table, 77, time, timeout).unwrap();
    table
}

/// The front numbers of those that ran out, in their order.
fn run_out(table: &mut Table, time: u64) -> Vec<i64> {
    let mut out = [0; ALL_ENDS];
    let ends = table.run_out(time, &mut out).unwrap();
    ends.map(|(_, front)| front.0).collect()
}

/// All of a table.
fn shown(table: &Table) -> String {
    format!("{table:?}")
}

#[test]
fn before_at_and_after_the_deadline() {
    assert_eq!(run_out(&mut one(1000, 250), 1249), []);
    assert_eq!(run_out(&mut one(1000, 250), 1250), [77]);
    assert_eq!(run_out(&mut one(1000, 250), 1251), [77]);
    assert_eq!(run_out(&mut one(1000, 250), LAST), [77]);
    let mut table = one(1000, 250);
    assert_eq!(run_out(&mut table, 1249), []);
    assert_eq!(run_out(&mut table, 1250), [77]);
    assert_eq!(run_out(&mut table, 1250), []);
}

#[test]
fn a_timeout_of_one_and_the_largest() {
    assert_eq!(run_out(&mut one(0, 1), 0), []);
    assert_eq!(run_out(&mut one(0, 1), 1), [77]);
    let far = u64::from(u32::MAX);
    assert_eq!(run_out(&mut one(5, u32::MAX), far + 4), []);
    assert_eq!(run_out(&mut one(5, u32::MAX), far + 5), [77]);
}

#[test]
fn without_a_timeout_there_is_no_deadline() {
    let mut table = one(1000, 0);
    table.ask(3, FrontNumber(78), 0).unwrap();
    assert_eq!(run_out(&mut table, LAST), []);
    let both = table.gone(Peer::Front(3), &mut [0; 4]).unwrap().len();
    assert_eq!(both, 2);
}

/// What an ask saw counts for the run-out, and the other way round.
#[test]
fn a_clock_that_goes_back() {
    let mut table = one(1000, 250);
    ask_by(&mut table, 78, 1250, 0).unwrap();
    assert_eq!(run_out(&mut table, 3), [77]);
    assert_eq!(run_out(&mut table, 2000), []);
    // From 2000 on, though the clock says 10.
    ask_by(&mut table, 79, 10, 5).unwrap();
    assert_eq!(run_out(&mut table, 2004), []);
    assert_eq!(run_out(&mut table, 2005), [79]);
}

/// Its time is seen whether it frees a request or not, and an earlier one after
/// it counts for nothing.
#[test]
fn what_a_run_out_saw_stays() {
    for (timeout, freed) in [(10, vec![77]), (0, vec![])] {
        let mut table = one(0, timeout);
        assert_eq!(run_out(&mut table, 10), freed);
        assert_eq!(run_out(&mut table, 3), []);
        ask_by(&mut table, 78, 0, 5).unwrap();
        assert_eq!(run_out(&mut table, 14), []);
        assert_eq!(run_out(&mut table, 15), [78]);
    }
}

#[test]
fn an_old_ask_sees_no_time() {
    let mut table = one(1000, 250);
    table.ask(4, FrontNumber(1), 1).unwrap();
    ask_by(&mut table, 78, 0, 250).unwrap();
    assert_eq!(run_out(&mut table, 1249), []);
    assert_eq!(run_out(&mut table, 0), []);
    assert_eq!(run_out(&mut table, 1250), [77, 78]);
}

#[test]
fn the_last_time_and_the_first_beyond() {
    let mut table = one(LAST, 1);
    assert_eq!(run_out(&mut table, LAST), []);
    for beyond in [LAST + 1, 1 << 63, u64::MAX] {
        let before = shown(&table);
        let mut out = [-1; ALL_ENDS];
        let refused = table.run_out(beyond, &mut out).err();
        assert_eq!(
            (refused, out),
            (Some(Refusal::OUT_OF_RANGE), [-1; ALL_ENDS])
        );
        let refused = ask_by(&mut table, 78, beyond, 9);
        assert_eq!(refused, Err(Refusal::OUT_OF_RANGE));
        assert_eq!(shown(&table), before);
    }
}

#[test]
fn a_time_out_of_range_comes_before_the_room() {
    let mut table = one(0, 1);
    for (time, refusal) in [
        (LAST + 1, Refusal::OUT_OF_RANGE),
        (LAST, Refusal::BUFFER_TOO_SMALL),
    ] {
        assert_eq!(table.run_out(time, &mut []).err(), Some(refusal));
    }
}

/// Also the latest time seen is as it was.
#[test]
fn refused_calls_change_nothing() {
    let mut table = one(1000, 250);
    for front in 1..=15 {
        ask_by(&mut table, front, 1000, 0).unwrap();
    }
    let before = shown(&table);
    let asks = [
        (32, 1, 0, Refusal::OUT_OF_RANGE),
        (3, 1, 8, Refusal::OUT_OF_RANGE),
        (3, 0, 0, Refusal::NUMBER_ZERO),
        (3, 77, 1, Refusal::IN_FLIGHT_ALREADY),
        (3, 78, 0, Refusal::LOAD_AT_LIMIT),
    ];
    for (link, front, publisher, refusal) in asks {
        let asked = table.ask_by(link, FrontNumber(front), publisher, 5000, None);
        assert_eq!(asked, Err(refusal));
    }
    let refused = table.run_out(5000, &mut [0; 1]).err();
    assert_eq!(refused, Some(Refusal::BUFFER_TOO_SMALL));
    assert_eq!(shown(&table), before);
    assert_eq!(run_out(&mut table, 1249), []);
}

/// Across slots: those that are freed are taken again by younger requests. And
/// their deadlines come in another order still.
#[test]
fn the_oldest_accepted_come_first() {
    let mut table = empty();
    for front in 1..=6 {
        ask_by(&mut table, front, 0, 100 - front as u32).unwrap();
    }
    table.cancel(3, FrontNumber(1)).unwrap();
    table.reply(0, PublisherNumber(4)).unwrap();
    ask_by(&mut table, 7, 0, 50).unwrap();
    ask_by(&mut table, 8, 0, 200).unwrap();
    ask_by(&mut table, 9, 0, 10).unwrap();
    assert_eq!(run_out(&mut table, 97), [3, 5, 6, 7, 9]);
    assert_eq!(run_out(&mut table, 200), [2, 8]);
}

#[test]
fn links_and_numbers_are_handed_back_as_they_were_written() {
    let mut table = empty();
    let timeout = NonZeroU32::new(9);
    for (link, front, publisher) in [(31, i64::MIN, 7), (0, -1, 0), (5, i64::MAX, 5)] {
        let front = FrontNumber(front);
        table.ask_by(link, front, publisher, 0, timeout).unwrap();
    }
    let mut out = [-7; 8];
    let ends = table.run_out(9, &mut out).unwrap();
    let of = |link, front| (link, FrontNumber(front));
    assert!(ends.eq([of(31, i64::MIN), of(0, -1), of(5, i64::MAX)]));
    assert_eq!(out, [31, i64::MIN, 0, -1, 5, i64::MAX, -7, -7]);
}

/// The slot of a request with a deadline is taken by one without, and by one
/// whose deadline is later.
#[test]
fn no_deadline_is_left_over_in_a_slot() {
    let mut table = one(0, 10);
    table.cancel(3, FrontNumber(77)).unwrap();
    table.ask(3, FrontNumber(78), 0).unwrap();
    assert_eq!(run_out(&mut table, 10), []);
    let mut table = one(0, 10);
    assert_eq!(run_out(&mut table, 10), [77]);
    ask_by(&mut table, 78, 10, 10).unwrap();
    assert_eq!(run_out(&mut table, 19), []);
    assert_eq!(run_out(&mut table, 20), [78]);
}

/// As many as a publisher may have. One number less leaves table and slice, and
/// more leaves what lies past the ends.
#[test]
fn slices_that_just_fit_and_do_not() {
    let mut table = empty();
    for front in 1..=16 {
        ask_by(&mut table, front, 0, 5).unwrap();
    }
    let before = shown(&table);
    let mut out = [-1; 40];
    for room in [0, 1, 16, 31] {
        let refused = table.run_out(5, &mut out[..room]).err();
        assert_eq!(refused, Some(Refusal::BUFFER_TOO_SMALL));
        assert_eq!((shown(&table), out), (before.clone(), [-1; 40]));
    }
    for room in [32, 33, 40] {
        let (mut table, mut out) = (table.clone(), [-1; 40]);
        let ends = table.run_out(5, &mut out[..room]).unwrap();
        assert!(ends.map(|(_, front)| front.0).eq(1..=16));
        assert_eq!(out[32..], [-1; 8]);
    }
}

/// An empty slice asks whether a deadline has come.
#[test]
fn with_an_empty_slice() {
    let mut table = one(1000, 250);
    assert!(table.run_out(1249, &mut []).unwrap().len() == 0);
    let refused = table.run_out(1250, &mut []).err();
    assert_eq!(refused, Some(Refusal::BUFFER_TOO_SMALL));
    // The first of the two was seen, the other not.
    ask_by(&mut table, 78, 0, 1).unwrap();
    assert_eq!(run_out(&mut table, 1249), []);
    assert_eq!(run_out(&mut table, 1250), [77, 78]);
}

/// Until it is run out it may be answered; then its publisher has room, and its
/// number is refused.
#[test]
fn a_publisher_that_hangs() {
    let mut table = empty();
    for front in 1..=16 {
        ask_by(&mut table, front, 0, 5).unwrap();
    }
    assert_eq!(ask_by(&mut table, 17, 9, 5), Err(Refusal::LOAD_AT_LIMIT));
    let replied = table.reply(0, PublisherNumber(3));
    assert_eq!(replied, Ok((3, FrontNumber(3))));
    assert_eq!(run_out(&mut table, 5).len(), 15);
    let late = table.reply(0, PublisherNumber(4));
    assert_eq!(late, Err(Refusal::NO_SUCH_REQUEST));
    let number = ask_by(&mut table, 17, 5, 5);
    assert_eq!(number, Ok(PublisherNumber(17)));
}

/// A copy may tell who is due before any request is freed.
#[test]
fn a_copy_tells_which_requests_are_due() {
    let mut table = one(0, 10);
    ask_by(&mut table, 78, 0, 20).unwrap();
    assert_eq!(run_out(&mut table.clone(), 10), [77]);
    let publisher = table.cancel(3, FrontNumber(77));
    assert_eq!(publisher, Ok((0, PublisherNumber(1))));
    assert_eq!(run_out(&mut table, 10), []);
}
