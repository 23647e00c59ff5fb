//! The events of the relay walk: their bytes, and the table's answer to each.

use crate::numbers::{read_i64, read_u32, read_u64};
use crate::refusal::Refusal;
use crate::table::{End, Side, Table};
use std::io::{self, BufRead, ErrorKind, Read};

#[derive(Clone, Copy, Debug, PartialEq, Eq)]
pub enum Event {
    /// Link, front number, publisher.
    Ask(u8, i64, u8),
    /// Publisher, publisher number.
    Reply(u8, i64),
    /// Link, front number.
    Cancel(u8, i64),
    /// The side and number of a peer: a link closed, or a publisher lost.
    Gone(Side, u8),
    /// Link, front number, publisher, time, timeout (0 for none).
    AskBy(u8, i64, u8, u64, u32),
    /// Time.
    RunOut(u64),
}

/// What the table hands back; a gone peer gives its side and a count, a run-out
/// its count, and the other ends stand in the slice that was lent.
#[derive(Clone, Copy, Debug, PartialEq, Eq)]
pub enum Answer {
    Ask(i64),
    Reply(End),
    Cancel(End),
    Gone(Side, usize),
    RunOut(usize),
}

const LONGEST_BODY: usize = 22;

fn body_length(kind: u8) -> Option<usize> {
    match kind {
        1 => Some(10),
        2 | 3 => Some(9),
        4 | 5 => Some(1),
        6 => Some(22),
        7 => Some(8),
        _ => None,
    }
}

impl Event {
    /// The next event of `input`; none at its end.
    pub fn read(input: &mut impl BufRead) -> io::Result<Option<Result<Event, Refusal>>> {
        let Some(kind) = input.by_ref().bytes().next().transpose()? else {
            return Ok(None);
        };
        let Some(length) = body_length(kind) else {
            return Ok(Some(Err(Refusal::BadEvent)));
        };
        let mut body = [0; LONGEST_BODY];
        match input.read_exact(&mut body[..length]) {
            Ok(()) => Ok(Some(Ok(Event::decode(kind, &body)))),
            Err(error) if error.kind() == ErrorKind::UnexpectedEof => {
                Ok(Some(Err(Refusal::BadEvent)))
            }
            Err(error) => Err(error),
        }
    }

    /// Of a known kind and its whole body.
    fn decode(kind: u8, body: &[u8; LONGEST_BODY]) -> Event {
        let number = read_i64(body, 1);
        match kind {
            1 => Event::Ask(body[0], number, body[9]),
            2 => Event::Reply(body[0], number),
            3 => Event::Cancel(body[0], number),
            4 => Event::Gone(Side::Front, body[0]),
            5 => Event::Gone(Side::Publisher, body[0]),
            6 => {
                let (time, timeout) = (read_u64(body, 10), read_u32(body, 18));
                Event::AskBy(body[0], number, body[9], time, timeout)
            }
            _ => Event::RunOut(read_u64(body, 0)),
        }
    }

    pub fn encode(self, bytes: &mut Vec<u8>) {
        let mut put = |kind, peer, number: &[u8]| {
            bytes.extend([kind, peer]);
            bytes.extend(number);
        };
        match self {
            Event::Ask(link, number, publisher) => {
                put(1, link, &number.to_le_bytes());
                bytes.push(publisher);
            }
            Event::Reply(publisher, number) => put(2, publisher, &number.to_le_bytes()),
            Event::Cancel(link, number) => put(3, link, &number.to_le_bytes()),
            Event::Gone(side, number) => put(side.of(4, 5), number, &[]),
            Event::AskBy(link, number, publisher, time, timeout) => {
                put(6, link, &number.to_le_bytes());
                bytes.push(publisher);
                bytes.extend(time.to_le_bytes());
                bytes.extend(timeout.to_le_bytes());
            }
            Event::RunOut(time) => {
                bytes.push(7);
                bytes.extend(time.to_le_bytes());
            }
        }
    }

    /// The call this event stands for.
    pub fn call(self, table: &mut Table, ends: &mut [i64]) -> Result<Answer, Refusal> {
        match self {
            Event::Ask(link, number, publisher) => {
                table.ask(link, number, publisher).map(Answer::Ask)
            }
            Event::Reply(publisher, number) => table.reply(publisher, number).map(Answer::Reply),
            Event::Cancel(link, number) => table.cancel(link, number).map(Answer::Cancel),
            Event::Gone(side, number) => {
                let count = table.gone(side, number, ends);
                count.map(|count| Answer::Gone(side, count))
            }
            Event::AskBy(link, number, publisher, time, timeout) => {
                let accepted = table.ask_by(link, number, publisher, time, timeout);
                accepted.map(Answer::Ask)
            }
            Event::RunOut(time) => table.run_out(time, ends).map(Answer::RunOut),
        }
    }
}

#[cfg(test)]
mod tests {
    use super::*;

    const EVENTS: [Event; 7] = [
        Event::Ask(3, i64::MIN, 7),
        Event::Reply(255, 0x0102_0304_0506_0708),
        Event::Cancel(0, -2),
        Event::Gone(Side::Front, 31),
        Event::Gone(Side::Publisher, 8),
        Event::AskBy(31, -2, 7, 0x0102_0304_0506_0708, 0x8090_A0B0),
        Event::RunOut(0xF1F2_F3F4_F5F6_F7F8),
    ];

    #[test]
    fn the_bytes_of_each_kind() {
        let bytes_of = |event: Event| {
            let mut bytes = Vec::new();
            event.encode(&mut bytes);
            bytes
        };
        assert_eq!(bytes_of(EVENTS[0]), [1, 3, 0, 0, 0, 0, 0, 0, 0, 0x80, 7]);
        assert_eq!(bytes_of(EVENTS[1]), [2, 255, 8, 7, 6, 5, 4, 3, 2, 1]);
        assert_eq!(bytes_of(EVENTS[2])[..3], [3, 0, 0xfe]);
        assert_eq!(bytes_of(EVENTS[3]), [4, 31]);
        assert_eq!(bytes_of(EVENTS[4]), [5, 8]);
        let ask_by = bytes_of(EVENTS[5]);
        assert_eq!(
            ask_by[..11],
            [6, 31, 0xfe, 255, 255, 255, 255, 255, 255, 255, 7]
        );
        assert_eq!(
            ask_by[11..],
            [8, 7, 6, 5, 4, 3, 2, 1, 0xb0, 0xa0, 0x90, 0x80]
        );
        let run_out = [7, 0xf8, 0xf7, 0xf6, 0xf5, 0xf4, 0xf3, 0xf2, 0xf1];
        assert_eq!(bytes_of(EVENTS[6]), run_out);
    }

    #[test]
    fn what_is_encoded_is_read() {
        let mut bytes = Vec::new();
        EVENTS.iter().for_each(|event| event.encode(&mut bytes));
        let mut input = &bytes[..];
        for event in EVENTS {
            assert_eq!(Event::read(&mut input).unwrap(), Some(Ok(event)));
        }
        assert_eq!(Event::read(&mut input).unwrap(), None);
    }

    #[test]
    fn cut_or_unknown_is_35() {
        for event in EVENTS {
            let mut bytes = Vec::new();
            event.encode(&mut bytes);
            for cut in 1..bytes.len() {
                let read = Event::read(&mut &bytes[..cut]).unwrap();
                assert_eq!(read, Some(Err(Refusal::BadEvent)));
            }
        }
        for kind in (0..=0).chain(8..=255) {
            let read = Event::read(&mut &[kind; 40][..]).unwrap();
            assert_eq!(read, Some(Err(Refusal::BadEvent)));
        }
    }
}
