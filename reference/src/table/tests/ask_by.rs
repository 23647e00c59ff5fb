//! Asks that bring a time and a timeout (document 02, A2).

use super::*;

/// The deadline of the request of a front end.
fn deadline(table: &Table, front: End) -> Option<u64> {
    let mut requests = table.in_flight();
    let request = requests.find(|request| request.front == front);
    request.unwrap().deadline()
}

#[test]
fn the_deadline_is_the_latest_time_seen_plus_the_timeout() {
    let mut table = fresh(1);
    assert_eq!(table.latest_time(), 0);
    for (number, (time, timeout, latest, expected)) in (1..).zip([
        (0, 5, 0, Some(5)),
        (100, 5, 100, Some(105)),
        (40, 5, 100, Some(105)),
        (0, 1, 100, Some(101)),
        (100, u32::MAX, 100, Some(100 + 0xFFFF_FFFF)),
        (300, 0, 300, None),
        (200, 0, 300, None),
        (LARGEST_TIME, 1, LARGEST_TIME, Some(1 << 62)),
        (7, u32::MAX, LARGEST_TIME, Some((1 << 62) + 0xFFFF_FFFE)),
    ]) {
        let accepted = table.ask_by(3, number, 2, time, timeout);
        assert_eq!(accepted, Ok(number));
        assert_eq!(table.latest_time(), latest);
        assert_eq!(deadline(&table, (3, number)), expected);
    }
}

#[test]
fn an_old_ask_has_no_deadline_and_no_time() {
    let mut table = fresh(1);
    assert_eq!(table.ask_by(0, 1, 0, 1000, 1), Ok(1));
    assert_eq!(table.cancel(0, 1), Ok((0, 1)));
    assert_eq!(table.ask(0, 1, 0), Ok(2));
    assert_eq!(deadline(&table, (0, 1)), None);
    assert_eq!(table.latest_time(), 1000);
}

/// Refused with `refusal`, and the table is no other: no time was seen.
fn assert_refused(table: &mut Table, ask: (u8, i64, u8), time: u64, refusal: Refusal) {
    let before = table.clone();
    let (link, number, publisher) = ask;
    for timeout in [0, 1, u32::MAX] {
        let answer = table.ask_by(link, number, publisher, time, timeout);
        assert_eq!(answer, Err(refusal), "{ask:?} {time}");
        assert!(*table == before, "{ask:?} {time}");
    }
}

#[test]
fn each_row_refuses_and_a_time_of_2_to_62_comes_before_the_others() {
    let mut table = with_loads([16, 16, 12, 0, 0, 0, 0, 0]);
    for (ask, refusal) in [
        ((32, 1, 3), Refusal::OutOfRange),
        ((3, 1, 8), Refusal::OutOfRange),
        ((32, 0, 8), Refusal::OutOfRange),
        ((3, 0, 3), Refusal::QueryNumberZero),
        ((3, 0, 0), Refusal::QueryNumberZero),
        ((0, 1, 3), Refusal::InFlightAlready),
        ((0, 1, 0), Refusal::InFlightAlready),
        ((9, 1, 0), Refusal::LoadFull),
        ((9, 1, 2), Refusal::SharedRoomGone),
    ] {
        for time in [0, 5, 1 << 32, LARGEST_TIME] {
            assert_refused(&mut table, ask, time, refusal);
        }
        for time in [1 << 62, 1 << 63, 3 << 62, u64::MAX] {
            assert_refused(&mut table, ask, time, Refusal::OutOfRange);
        }
    }
    for time in [1 << 62, (1 << 62) + 1, 1 << 63, u64::MAX] {
        assert_refused(&mut table, (9, 1, 3), time, Refusal::OutOfRange);
    }
    assert_eq!(table.ask_by(9, 1, 3, LARGEST_TIME, 0), Ok(1));
    assert_eq!(table.latest_time(), LARGEST_TIME);
}

/// They are in flight and count, whatever time an ask brings.
#[test]
fn overdue_requests_are_found_and_count() {
    let mut table = fresh(1);
    for number in 1..=16 {
        assert_eq!(table.ask_by(1, number, 4, 0, 10), Ok(number));
    }
    assert_refused(&mut table, (2, 1, 4), 11, Refusal::LoadFull);
    assert_eq!(table.ask_by(2, 1, 5, 500, 0), Ok(1));
    assert_refused(&mut table, (2, 2, 4), 501, Refusal::LoadFull);
    assert_refused(&mut table, (1, 3, 5), 501, Refusal::InFlightAlready);
    assert_eq!(table.ask(2, 2, 4), Err(Refusal::LoadFull));
    assert_eq!(table.reply(4, 2), Ok((1, 2)));
    assert_eq!(table.cancel(1, 3), Ok((4, 3)));
    let mut ends = [0; 28];
    assert_eq!(table.clone().gone(Side::Front, 1, &mut ends), Ok(14));
    assert_eq!(table.gone(Side::Publisher, 4, &mut ends), Ok(14));
}
