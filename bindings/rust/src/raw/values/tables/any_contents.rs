//! Contents that no call has written, at random: every call does what is defined
//! for them.

use super::random::Random;
use super::{defined, *};

/// An answer of ours, and what is defined: a refusal, a place and a number.
type Answers = ((u8, u8, i64), Result<(u8, i64), u8>);

/// The same ask, reply or cancel on two tables.
fn one(random: &mut Random, tables: [&mut Table; 2], a: u8, b: u8, kind: usize) -> Answers {
    let [table, other] = tables;
    let number = NUMBERS[random.below(8)];
    match kind {
        0 => {
            let r = relay_reply(table, b, PublisherNumber(number));
            let defined = defined::reply(other, b, number);
            ((r.refusal, r.link, r.number.0), defined)
        }
        1 => {
            let r = relay_cancel(table, a, FrontNumber(number));
            let defined = defined::cancel(other, a, number);
            ((r.refusal, r.publisher, r.number.0), defined)
        }
        _ => {
            let (time, timeout) = (any_time(random), TIMEOUTS[random.below(5)]);
            let r = relay_ask_by(table, a, FrontNumber(number), b, time, timeout);
            let defined = defined::ask(other, a, number, b, (time, timeout));
            ((r.refusal, 0, r.number.0), defined.map(|n| (0, n)))
        }
    }
}

/// The same ends written, and the same count.
fn counted(ours: Dropped, defined: Result<usize, u8>, outs: [[i64; 130]; 2]) -> Answers {
    assert_eq!(outs[0], outs[1]);
    let counts = defined.map(|n| (0, n as i64));
    ((ours.refusal, 0, ours.count as i64), counts)
}

/// The same gone peer on two tables, into the same room.
fn many(publisher: bool, tables: [&mut Table; 2], number: u8, room: usize) -> Answers {
    let [table, other] = tables;
    let (mut out, mut wanted) = ([-9; 130], [-9; 130]);
    let ours = relay_gone(table, publisher, number, &mut out[..room]);
    let defined = defined::gone(other, publisher, number, &mut wanted[..room]);
    counted(ours, defined, [out, wanted])
}

/// The same run-out on two tables, into the same room.
fn run_out(tables: [&mut Table; 2], time: u64, room: usize) -> Answers {
    let [table, other] = tables;
    let (mut out, mut wanted) = ([-9; 130], [-9; 130]);
    let ours = relay_run_out(table, time, &mut out[..room]);
    let defined = defined::run_out(other, time, &mut wanted[..room]);
    counted(ours, defined, [out, wanted])
}

const NUMBERS: [i64; 8] = [0, 1, 2, 3, -1, i64::MAX, i64::MAX - 1, i64::MIN];
const TIMEOUTS: [u32; 5] = [0, 1, 2, 1 << 31, u32::MAX];

/// For a deadline, for the latest time seen, or for a call's own: few, so that
/// they meet, and on both sides of what is in range.
fn any_time(random: &mut Random) -> u64 {
    let any = random.next();
    let times = [0, 0, 1, 2, 3, 4, LAST_TIME - 1, LAST_TIME, LAST_TIME + 1];
    match random.below(12) {
        9 => 1 << 63,
        10 => u64::MAX,
        11 => any,
        nth => times[nth],
    }
}

fn compare(random: &mut Random, table: &mut Table) {
    let mut other = *table;
    let tables = [&mut *table, &mut other];
    let (a, b) = (random.below(34) as u8, random.below(9) as u8);
    let room = [0, 1, 2, 5, 16, 40, 127, 128, 130][random.below(9)];
    let (ours, defined) = match random.below(8) {
        4 => many(LINK, tables, a, room),
        5 => many(PUBLISHER, tables, b, room),
        6 | 7 => run_out(tables, any_time(random), room),
        kind => one(random, tables, a, b, kind),
    };
    let defined = defined.map_or_else(|no| (no, 0, 0), |(place, n)| (0, place, n));
    assert_eq!((ours, *table), (defined, other));
}

/// Any bytes, places that all slots could have, each of these once, or few.
fn any_order(random: &mut Random, kind: usize) -> [u8; 64] {
    match kind {
        0 => random.bytes(64).try_into().expect("64 bytes"),
        1 => std::array::from_fn(|_| random.below(64) as u8),
        2 => std::array::from_fn(|_| random.below(5) as u8),
        _ => {
            let mut order = std::array::from_fn(|i| i as u8);
            for i in 1..64 {
                order.swap(i, random.below(i + 1));
            }
            order
        }
    }
}

/// Few numbers and links, so that they meet; masks from sparse to full.
#[test]
fn random_contents() {
    let mut random = Random(6);
    for n in 0..30_000 {
        let sparse = |random: &mut Random| match n % 4 {
            0 => random.next() & random.next() & random.next(),
            1 => random.next() | random.next() | random.next(),
            2 => 1 << random.below(64),
            _ => random.next(),
        };
        let links = [3, 32, 256][n % 3];
        let mut table = Table {
            masks: std::array::from_fn(|_| sparse(&mut random)),
            numbers: std::array::from_fn(|_| NUMBERS[random.below(8)]),
            places: std::array::from_fn(|_| random.below(links) as u8),
            order: any_order(&mut random, n / 12 % 4),
            times: std::array::from_fn(|_| any_time(&mut random)),
        };
        for _ in 0..8 {
            compare(&mut random, &mut table);
        }
    }
}
