//! Invokes that the message check writes, with a timeout given as 0, with none
//! and with another (document 02, A1).

use super::message_cases::push_write;
use super::message_reads::header_values;
use super::message_writes::size_with_field;
use super::message_zero_reads::{ACTORS, NUMBERS};
use super::records::{self, Draft};

/// Two that mean the same and the least that does not.
const TIMEOUTS: [Option<u32>; 3] = [None, Some(0), Some(1)];

/// More than any message here needs.
const ENOUGH: usize = 60;

pub fn push(records: &mut Vec<u8>) {
    rooms(records);
    other_timeouts(records);
    header_payloads(records);
    number_zero(records);
    other_kinds(records);
}

fn invoke(number: i64, actor: Option<i64>, timeout: Option<u32>) -> Draft {
    let draft = Draft::new(records::INVOKE, number);
    let draft = actor.map_or(draft, |actor| draft.actor(actor));
    timeout.map_or(draft, |timeout| draft.timeout(timeout))
}

/// The sizes of the same message without a timeout and with one.
fn sizes(draft: &Draft, bytes: &[u8]) -> [usize; 2] {
    [false, true].map(|has_timeout| {
        let draft = Draft {
            has_timeout,
            ..*draft
        };
        size_with_field(&draft, bytes).expect("it can be written")
    })
}

/// No room, and rooms around the size without a field and with it: between the
/// two, a program that makes room for a field it does not write is found out.
fn rooms(records: &mut Vec<u8>) {
    for actor in ACTORS {
        for (turn, n) in [0, 1, 4, 9].into_iter().enumerate() {
            for tl2 in [false, true] {
                for timeout in TIMEOUTS {
                    let draft = invoke(NUMBERS[turn], actor, timeout).tl2(tl2);
                    let payload = &b"a payload"[..n];
                    push_write(records, &draft, 0, payload);
                    for size in sizes(&draft, payload) {
                        for room in [size - 1, size, size + 7] {
                            push_write(records, &draft, room, payload);
                        }
                    }
                }
            }
        }
    }
}

/// Of which all bytes but one are 0, and others: only 0 is none.
fn other_timeouts(records: &mut Vec<u8>) {
    for timeout in [255, 256, 65_536, 1 << 23, 1 << 24, 1 << 31, u32::MAX] {
        for actor in [None, Some(5)] {
            for tl2 in [false, true] {
                let draft = invoke(2, actor, Some(timeout)).tl2(tl2);
                let [_, size] = sizes(&draft, b"rest");
                for room in [size - 1, size] {
                    push_write(records, &draft, room, b"rest");
                }
            }
        }
    }
}

/// Payloads that begin with a header value, or with all but its last byte.
fn header_payloads(records: &mut Vec<u8>) {
    for value in header_values() {
        let payload = [&value.to_le_bytes()[..], b"more"].concat();
        for actor in [None, Some(5)] {
            for timeout in TIMEOUTS {
                for tl2 in [false, true] {
                    let draft = invoke(3, actor, timeout).tl2(tl2);
                    for n in [3, 4, 8] {
                        push_write(records, &draft, ENOUGH, &payload[..n]);
                    }
                    push_write(records, &draft, 0, &payload[..4]);
                }
            }
        }
    }
}

fn number_zero(records: &mut Vec<u8>) {
    let header = header_values()[0].to_le_bytes();
    for actor in [None, Some(5)] {
        for timeout in TIMEOUTS {
            for tl2 in [false, true] {
                let draft = invoke(0, actor, timeout).tl2(tl2);
                for bytes in [&b""[..], &header] {
                    for room in [0, ENOUGH] {
                        push_write(records, &draft, room, bytes);
                    }
                }
            }
        }
    }
}

/// A timeout has no meaning in them, be it 0 or not.
fn other_kinds(records: &mut Vec<u8>) {
    for kind in records::CANCEL..=records::ERROR {
        for timeout in [0, 1] {
            let draft = Draft::new(kind, 4).timeout(timeout);
            push_write(records, &draft, ENOUGH, b"bytes");
        }
    }
}
