//! What was stored before a timeout of 0 was none (document 02, A1): its input
//! stays in front, and of its lines only those change that had such a timeout.

use super::*;
use crate::stored::records;

/// Size and CRC-32 of input and output, and the lines, as they were then.
const OLD_INPUT: (usize, u32) = (1_388_797, 0xCED0_0B46);
const OLD_OUTPUT: (usize, u32) = (262_540, 0x9A68_C8B3);
const OLD_LINES: usize = 17_135;

/// Of these, the lines whose record has no timeout of 0.
const OTHER_LINES: usize = 16_655;
const OTHER_OUTPUT: (usize, u32) = (255_330, 0x45BD_88EC);

/// Of the remaining ones, those that say something else now: fields read,
/// messages written that are shorter, and messages that fit now.
const CHANGED_LINES: [usize; 3] = [139, 64, 32];

#[test]
fn the_old_input_stays_in_front() {
    let (size, sum) = OLD_INPUT;
    assert_eq!(CRC32.of(&input()[..size]), sum);
    assert_eq!(lines(&input()[..size]).lines().count(), OLD_LINES);
    let new = lines(&input()[size..]).lines().count();
    assert!((3000..=6000).contains(&new), "{new}");
}

enum Record<'a> {
    Read(Side, u32, &'a [u8]),
    /// Draft, room and bytes.
    Write(Draft, usize, &'a [u8]),
}

fn take<'a>(records: &mut Records<'a>) -> Option<Record<'a>> {
    let record = match records.op()? {
        0 => {
            let sides = [Side::Server, Side::Client];
            let reader = sides[usize::from(records.flag())];
            Record::Read(reader, records.u32(), records.run())
        }
        _ => {
            let draft = Draft::take(records);
            Record::Write(draft, records.u32() as usize, records.run())
        }
    };
    Some(record)
}

/// Each old record with the line it has now.
fn old_records(check: impl FnMut((Record, &str))) {
    let input = &input()[..OLD_INPUT.0];
    let mut records = Records(input);
    let taken = std::iter::from_fn(|| take(&mut records));
    taken.zip(lines(input).lines()).for_each(check);
}

fn has_zero(record: &Record) -> bool {
    match record {
        Record::Read(Side::Server, v::INVOKE, body) => reaches_zero_field(body),
        Record::Read(..) => false,
        Record::Write(draft, ..) => {
            draft.kind == records::INVOKE && draft.has_timeout && draft.timeout == 0
        }
    }
}

/// Whether a timeout field of 0 stands among the headers of an invoke. It does
/// not ask the reader, whose rule it helps to hold.
fn reaches_zero_field(body: &[u8]) -> bool {
    let four = |at: usize| {
        let bytes = body.get(at..at + 4)?;
        Some(u32::from_le_bytes(bytes.try_into().expect("four bytes")))
    };
    let mut at = 8;
    loop {
        let mask = match four(at) {
            Some(v::DEST_ACTOR) => {
                at += 12;
                continue;
            }
            Some(v::DEST_FLAGS) => at + 4,
            Some(v::DEST_ACTOR_FLAGS) => at + 12,
            _ => return false,
        };
        at = match (four(mask), four(mask + 4)) {
            (Some(0), _) => mask + 4,
            (Some(v::TIMEOUT_BIT), Some(0)) => return true,
            (Some(v::TIMEOUT_BIT), Some(_)) => mask + 8,
            _ => return false,
        };
    }
}

#[test]
fn old_lines_without_a_zero_are_the_same() {
    let (mut count, mut text) = (0, String::new());
    old_records(|(record, line)| {
        if !has_zero(&record) {
            count += 1;
            text += &format!("{line}\n");
        }
    });
    assert_eq!(count, OTHER_LINES);
    let (size, sum) = OTHER_OUTPUT;
    assert_eq!((text.len(), CRC32.of(text.as_bytes())), (size, sum));
}

/// The line that the record had when a field of 0 was reported as 0 ms and
/// written like any other.
fn old_line(record: &Record, line: &str) -> String {
    match record {
        _ if !has_zero(record) => line.to_string(),
        Record::Read(..) => read_as_zero(line),
        Record::Write(draft, room, bytes) => written_with_zero(draft, *room, bytes),
    }
}

/// A refusal as it is; else with the timeout reported.
fn read_as_zero(line: &str) -> String {
    let mut words: Vec<&str> = line.split(' ').collect();
    if let ["invoke", _, _, timeout, ..] = &mut words[..] {
        assert_eq!(*timeout, "-");
        *timeout = "0";
    }
    words.join(" ")
}

/// The bytes for another timeout, with the field then made 0.
fn written_with_zero(draft: &Draft, room: usize, bytes: &[u8]) -> String {
    let mut body = match message::body(&draft.timeout(1).message(bytes)) {
        Ok(body) => body,
        Err(refusal) => return format!("no {}", refusal.number()),
    };
    let size = body.len();
    if room < size {
        return "no 16".to_string();
    }
    let field = if draft.has_actor { 24 } else { 16 };
    assert_eq!(body[field..field + 4], [1, 0, 0, 0]);
    body[field] = 0;
    body.resize(room, FILLING);
    format!("size {size} {:08x}", CRC32.of(&body))
}

/// So no line changed otherwise than the request says.
#[test]
fn the_old_rule_gives_the_old_output() {
    let (mut changed, mut text) = ([0; 3], String::new());
    old_records(|(record, line)| {
        let old = old_line(&record, line);
        if old != line {
            assert!(!line.starts_with("no "));
            let kind = match (record, &old[..]) {
                (Record::Read(..), _) => 0,
                (Record::Write(..), "no 16") => 2,
                (Record::Write(..), _) => 1,
            };
            changed[kind] += 1;
        }
        text += &format!("{old}\n");
    });
    let (size, sum) = OLD_OUTPUT;
    assert_eq!((text.len(), CRC32.of(text.as_bytes())), (size, sum));
    assert_eq!(changed, CHANGED_LINES);
}

/// A timeout of 0 is never reported, and what is written for it is what is
/// written for none in the same room.
#[test]
fn every_zero_reads_and_writes_as_none() {
    let input = input();
    let mut records = Records(&input);
    let text = lines(&input);
    for line in text.lines() {
        let record = take(&mut records).expect("a record for each line");
        if !has_zero(&record) {
            continue;
        }
        match record {
            Record::Read(..) => {
                let refused = line.starts_with("no ");
                assert!(refused || line.split(' ').nth(3) == Some("-"), "{line}");
            }
            Record::Write(draft, room, bytes) => {
                let mut none = Vec::new();
                let has_timeout = false;
                let draft = Draft {
                    has_timeout,
                    ..draft
                };
                push_write(&mut none, &draft, room, bytes);
                assert_eq!(lines(&none).trim_end(), line);
            }
        }
    }
}
