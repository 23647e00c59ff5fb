//! The call that frees what ran out (document 02, A2).

use super::*;

/// What the lent slices hold before a call.
const LENT: i64 = -99;

/// Three deadlines among requests that have none; the newest is due first,
/// and the latest time seen is 100.
fn three_deadlines() -> Table {
    let mut table = fresh(40);
    assert_eq!(table.ask_by(3, 1, 5, 100, 30), Ok(40));
    assert_eq!(table.ask(7, 1, 3), Ok(40));
    assert_eq!(table.ask_by(31, i64::MIN, 5, 90, 20), Ok(41));
    assert_eq!(table.ask_by(0, -1, 0, 100, 0), Ok(40));
    assert_eq!(table.ask_by(3, i64::MAX, 0, 0, 10), Ok(41));
    table
}

/// Times with the list that a run-out then gives.
const LISTS: [(u64, &[i64]); 9] = [
    (0, &[]),
    (100, &[]),
    (109, &[]),
    (110, &[3, i64::MAX]),
    (119, &[3, i64::MAX]),
    (120, &[31, i64::MIN, 3, i64::MAX]),
    (129, &[31, i64::MIN, 3, i64::MAX]),
    (130, &[3, 1, 31, i64::MIN, 3, i64::MAX]),
    (LARGEST_TIME, &[3, 1, 31, i64::MIN, 3, i64::MAX]),
];

/// Refused with `refusal`: neither the slice nor the table is another, so
/// neither the requests nor the latest time.
fn assert_refused(table: &mut Table, time: u64, length: usize, refusal: Refusal) {
    let (before, mut ends) = (table.clone(), vec![LENT; length]);
    let answer = table.run_out(time, &mut ends);
    assert_eq!(answer, Err(refusal), "{time} {length}");
    assert_eq!(ends, vec![LENT; length]);
    assert!(*table == before, "{time} {length}");
}

#[test]
fn the_list_the_count_and_what_lies_past_the_list() {
    for (time, list) in LISTS {
        for length in list.len()..=2 * ROOM + 3 {
            let (mut table, mut ends) = (three_deadlines(), vec![LENT; length]);
            let answer = table.run_out(time, &mut ends);
            assert_eq!(answer, Ok(list.len() / 2), "{time} {length}");
            assert_eq!(ends[..list.len()], *list);
            assert!(ends[list.len()..].iter().all(|&number| number == LENT));
            assert_eq!(table.latest_time(), time.max(100));
        }
    }
}

/// One number less than two for each is too small, and so is all below.
#[test]
fn a_slice_too_small_is_16_and_changes_nothing() {
    let mut table = three_deadlines();
    for (time, list) in LISTS {
        for length in 0..list.len() {
            assert_refused(&mut table, time, length, Refusal::BufferTooSmall);
        }
    }
    assert!(table == three_deadlines());
    assert_eq!(table.latest_time(), 100);
    assert_eq!(table.run_out(110, &mut [0; 2]), Ok(1));
}

#[test]
fn a_time_of_2_to_62_is_30_whatever_the_slice() {
    let mut table = three_deadlines();
    for time in [1 << 62, (1 << 62) + 130, 1 << 63, 3 << 62, u64::MAX] {
        for length in 0..10 {
            assert_refused(&mut table, time, length, Refusal::OutOfRange);
        }
    }
    assert_eq!(table.run_out(LARGEST_TIME, &mut [0; 6]), Ok(3));
}

#[test]
fn a_fresh_table_has_seen_time_0() {
    let mut table = fresh(1);
    assert_eq!(table.run_out(0, &mut []), Ok(0));
    assert_eq!(table.ask_by(0, 1, 0, 0, 1), Ok(1));
    assert_eq!(table.run_out(0, &mut []), Ok(0));
    assert_eq!(table.run_out(1, &mut [0; 2]), Ok(1));
}

#[test]
fn if_the_clock_goes_back_the_latest_time_counts() {
    let mut table = three_deadlines();
    assert_eq!(table.run_out(109, &mut []), Ok(0));
    assert_eq!(table.ask_by(8, 1, 6, 121, 0), Ok(40));
    let mut ends = [LENT; 4];
    assert_refused(&mut table, 5, 3, Refusal::BufferTooSmall);
    assert_eq!(table.run_out(5, &mut ends), Ok(2));
    assert_eq!(ends, [31, i64::MIN, 3, i64::MAX]);
    assert_eq!(table.latest_time(), 121);
    assert_eq!(table.ask_by(8, 2, 6, 5, 9), Ok(41));
    assert_eq!(table.run_out(129, &mut []), Ok(0));
    assert_eq!(table.run_out(130, &mut ends), Ok(2));
    assert_eq!(ends, [3, 1, 8, 2]);
}

/// The others keep all they have; what was freed can be asked, and the
/// numbering of every publisher goes on.
#[test]
fn only_those_whose_deadline_is_reached_are_freed() {
    for (time, list) in LISTS {
        let (mut table, before) = (three_deadlines(), three_deadlines());
        table.run_out(time, &mut [0; 6]).unwrap();
        assert_eq!(table.run_out(time, &mut []), Ok(0));
        assert_eq!(table.next, before.next);
        assert_eq!(table.count() + list.len() / 2, before.count());
        for request in before.in_flight() {
            let (link, front_number) = request.front;
            let (publisher, publisher_number) = request.publisher;
            if request.deadline().is_some_and(|deadline| deadline <= time) {
                let late = table.reply(publisher, publisher_number);
                assert_eq!(late, Err(Refusal::NotInFlight));
                let late = table.cancel(link, front_number);
                assert_eq!(late, Err(Refusal::NotInFlight));
                table.ask(link, front_number, 6).unwrap();
            } else {
                assert_eq!(table.cancel(link, front_number), Ok(request.publisher));
            }
        }
    }
}

/// The hung publisher of document 02, and a table that runs out as a whole.
#[test]
fn loads_and_room_are_given_back() {
    let mut table = fresh(1);
    for round in 0..3 {
        let time = 1000 * round;
        for number in 1..=16 {
            let accepted = table.ask_by(1, number, 7, time, 500);
            assert_eq!(accepted, Ok(16 * round as i64 + number));
        }
        assert_eq!(table.ask(1, 17, 7), Err(Refusal::LoadFull));
        assert_refused(&mut table, time + 500, 31, Refusal::BufferTooSmall);
        assert_eq!(table.run_out(time + 500, &mut [0; 32]), Ok(16));
        assert_eq!(table.loads, [0; 8]);
    }
    for number in 1..=64 {
        let publisher = (number % 8) as u8;
        table
            .ask_by(2, number, publisher, 0, 65 - number as u32)
            .unwrap();
    }
    assert_eq!(table.ask(2, 65, 0), Err(Refusal::SharedRoomGone));
    let (mut ends, numbers) = ([0; 2 * ROOM], 1..=64);
    assert_eq!(table.run_out(5000, &mut ends), Ok(ROOM));
    assert!(ends.chunks_exact(2).map(|end| end[1]).eq(numbers));
    assert_eq!(table.count(), 0);
}

/// The slices have all lengths, most of them near what is needed.
#[test]
fn agrees_with_the_book_with_slices_of_all_lengths() {
    let mut generator = Generator::new(505);
    for (first, pace) in [
        (1, Pace::RunsOn),
        (7, Pace::Any),
        (i64::MAX - 3, Pace::GoesBack),
    ] {
        let mut traffic = Traffic::new(first as u64, traffic::MIXED.by_clock(pace));
        let (mut table, mut book) = (fresh(first), Book::fresh(first).ok().unwrap());
        for _ in 0..20_000 {
            let event = traffic.event(&table);
            let length = match event {
                Event::RunOut(time) => {
                    let now = time.max(table.latest_time());
                    let due = |request: &&Request| request.runs_out_by(now);
                    let needed = 2 * table.in_flight().filter(due).count();
                    (needed + generator.below(5) as usize).saturating_sub(2)
                }
                _ => generator.below(2 * ROOM as u64 + 3) as usize,
            };
            let lent: Vec<i64> = (0..length).map(|_| generator.draw() as i64).collect();
            call_both(&mut table, &mut book, event, &lent);
        }
    }
}
