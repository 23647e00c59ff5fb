//! Whole conversations: two ends that talk to each other over streams cut at
//! random places, and one end against packets made by hand.

use crate::both::{End, Taken};
use crate::compare::{Compared, Difference};
use crate::counts::Counts;
use crate::draw::{self, coin, one_in};
use crate::flushes;
use crate::packets;
use crate::padding;
use crate::pairs;
use reference::generator::Generator;
use reference::link::{packet, Outgoing};

pub fn case(g: &mut Generator, counts: &mut Counts) -> Compared {
    if coin(g) {
        Pair::new(g, counts).talk(g, counts)
    } else {
        against_a_stranger(g, counts)
    }
}

struct Pair {
    ends: [End; 2],
    /// The bytes on the way to each end, and its clock.
    streams: [Vec<u8>; 2],
    times: [u32; 2],
}

enum Step {
    Send(usize),
    Receive(usize),
    Flush(usize),
}

fn base_time(g: &mut Generator) -> u32 {
    let random = g.draw() as u32;
    if coin(g) {
        return 1_700_000_000;
    }
    g.pick(&[0, 15, u32::MAX, u32::MAX - 15, random])
}

impl Pair {
    fn new(g: &mut Generator, counts: &mut Counts) -> Pair {
        let ends = pairs::pair(pairs::any(g), counts);
        let time = base_time(g);
        let skew = g.pick(&[0, 0, 1, 7, 29, 30, 30, 31]);
        let times = [time, time.wrapping_add(skew)];
        Pair {
            ends,
            streams: [Vec::new(), Vec::new()],
            times: if coin(g) { times } else { [times[1], times[0]] },
        }
    }

    fn talk(&mut self, g: &mut Generator, counts: &mut Counts) -> Compared {
        // A share of the conversations is honest from end to end.
        let spoils = if coin(g) { 12 } else { u64::MAX };
        let mut left = 15 + g.below(60);
        while left > 0 {
            left -= 1;
            match self.due(g) {
                Step::Send(i) => self.send(g, i, spoils, counts)?,
                Step::Receive(i) => self.receive(g, i, counts)?,
                Step::Flush(i) => {
                    let words = flushes::any(g, &mut self.ends[i], counts)?;
                    self.streams[1 - i].extend(words.unwrap_or_default());
                }
            }
            if self.ends.iter().any(|end| end.second.is_closed()) {
                left = left.min(4);
            }
        }
        Ok(())
    }

    /// In the opening mostly what takes it further, after it anything.
    fn due(&self, g: &mut Generator) -> Step {
        let stage = |i: usize| self.ends[i].second.state().stage;
        let i = g.below(2) as usize;
        if stage(i) == 4 || one_in(g, 6) {
            return match g.below(9) {
                0..4 => Step::Send(i),
                4..8 => Step::Receive(i),
                _ => Step::Flush(i),
            };
        }
        // The client, 0, receives at odd stages, the server, 1, at even ones.
        // Words may be on the way to a server that is to send.
        let is_reader = |i: &usize| !self.streams[*i].is_empty() && stage(*i) as usize % 2 != *i;
        match (0..2).find(is_reader) {
            Some(reader) => Step::Receive(reader),
            None => Step::Send(usize::from(stage(i) % 2 == 1)),
        }
    }

    fn send(&mut self, g: &mut Generator, i: usize, spoils: u64, counts: &mut Counts) -> Compared {
        let sent = send_something(g, &mut self.ends[i], self.times[i], counts)?;
        let Some(mut packet) = sent else {
            return Ok(());
        };
        if one_in(g, spoils) {
            packet = packets::instead(g, &self.ends[1 - i], packet);
        }
        self.streams[1 - i].extend(packet);
        Ok(())
    }

    fn receive(&mut self, g: &mut Generator, i: usize, counts: &mut Counts) -> Compared {
        let stream = &self.streams[i];
        let cut = if coin(g) {
            stream.len()
        } else {
            padding::cut(g, stream.len())
        };
        let used = receive_and_read(&mut self.ends[i], &stream[..cut], self.times[i], counts)?;
        self.streams[i].drain(..used);
        Ok(())
    }
}

/// How many of the bytes were used.
fn receive_and_read(
    end: &mut End,
    bytes: &[u8],
    time: u32,
    counts: &mut Counts,
) -> Result<usize, Difference> {
    match end.receive(bytes, time, counts)? {
        Taken::Packet(packet) => {
            end.read(packet, bytes, counts)?;
            Ok(packet.consumed)
        }
        Taken::Wait | Taken::Refused => Ok(0),
    }
}

/// Mostly what is due, into a buffer that mostly has room.
pub fn send_something(
    g: &mut Generator,
    end: &mut End,
    time: u32,
    counts: &mut Counts,
) -> Result<Option<Vec<u8>>, Difference> {
    let sender = if one_in(g, 10) {
        draw::other(end.side)
    } else {
        end.side
    };
    let message = draw::message(g, sender);
    let what = match end.second.state().stage {
        0 | 1 if !one_in(g, 10) => draw::nonce(g, time),
        2 | 3 if !one_in(g, 10) => draw::handshake(g),
        _ => draw::outgoing(g, time, &message),
    };
    let room = if one_in(g, 5) {
        narrow_room(g, end, &what)
    } else {
        700
    };
    let filler = g.byte();
    end.send(&what, time, room, filler, counts)
}

/// On either side of what is needed, or any.
fn narrow_room(g: &mut Generator, end: &End, what: &Outgoing) -> usize {
    let needed = end.second.clone().send(what, &mut [0; 1000]).unwrap_or(16);
    let any = g.below(100) as usize;
    let near = draw::near(g, needed);
    g.pick(&[near, near, needed, any, 0])
}

/// One end, whose sends and flushes go nowhere, and packets made for it.
fn against_a_stranger(g: &mut Generator, counts: &mut Counts) -> Compared {
    let set_ups = pairs::meeting(g);
    let stage = g.pick(&[0, 0, 0, 1, 2, 3, 4, 4, 4, 4]);
    let ends = pairs::opened(set_ups, stage, counts)?;
    let mut end = ends[g.below(2) as usize].clone();
    let time = base_time(g);
    let mut left = 5 + g.below(40);
    while left > 0 {
        left -= 1;
        match g.below(10) {
            0..3 => {
                send_something(g, &mut end, time, counts)?;
            }
            3 => {
                flushes::any(g, &mut end, counts)?;
            }
            _ => {
                let bytes = from_a_stranger(g, &end, time);
                receive_and_read(&mut end, &bytes, time, counts)?;
            }
        }
        if end.second.is_closed() {
            left = left.min(2);
        }
    }
    Ok(())
}

/// A packet, cut now and then, with more behind it now and then.
fn from_a_stranger(g: &mut Generator, end: &End, time: u32) -> Vec<u8> {
    let mut bytes = packets::crafted(g, end, time);
    if one_in(g, 3) {
        bytes.truncate(padding::cut(g, bytes.len()));
    }
    if one_in(g, 3) {
        bytes.extend(end.expected_packet(packet::PING, &[5; 8]));
    }
    bytes
}
