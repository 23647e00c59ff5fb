//! Sending messages with the library, with the second program's link, and with a writer in plain Rust over slicing by 8, in
//! one run. The candidates take turns into buffers of their own; before the timing their buffers are compared.
//!
//! The plain writer knows an open client link and one message. The second program computes its checksum bit by bit.
//!
//! On a padded link the payload has one byte more: three zeros follow the packet. A flush writes three words, on a copy
//! of the link each time: a second one would write none.

use reference::link::{Link as Second, Outgoing, Settings as SecondSettings};
use reference::message::{Invoke, Message, Side};
use std::hint::black_box;
use std::time::Instant;

#[path = "plain_crc.rs"]
mod plain_crc;
use plain_crc::{sliced, tables};

const TIME: u32 = 1_700_000_000;
const CALLS: usize = 2_000;
const ROUNDS: usize = 41;
const ROOM: usize = 2048;

/// A client of ours and one of the second program, after the same opening.
fn opened(crc32c: bool, padded: bool) -> (relay::Link, Second) {
    let now = relay::Moment { time: TIME };
    let settings = relay::Settings::new(relay::Side::Client, crc32c).with_padded(padded);
    let mut ours = relay::Link::new(settings).expect("a link");
    let fresh = |side| Second::set_up(SecondSettings { padded, ..SecondSettings::new(side, crc32c) });
    let mut second = fresh(Side::Client).expect("a link");
    let mut server = fresh(Side::Server).expect("a link");
    let pid = |n| relay::NetPid { ip: n, port: 0, pid: 0, start: 0 };
    let (mut a, mut b) = ([0; 128], [0; 128]);
    for stage in 0..2 {
        let (here, there) = match stage {
            0 => (relay::ToSend::Nonce { random: [7; 16] }, Outgoing::Nonce(TIME, [7; 16], [0; 32])),
            _ => (relay::ToSend::Handshake { sender: pid(0), peer: pid(0) }, Outgoing::Handshake([0; 12], [0; 12])),
        };
        let size = ours.send(&mut a, here, now).expect("our turn");
        assert_eq!(second.send(&there, &mut b), Ok(size));
        assert_eq!(a, b);
        server.receive(&a[..size], TIME).expect("a packet of the opening");
        let size = server.send(&there, &mut b).expect("the server's turn");
        assert!(matches!(ours.receive(&b[..size], now), relay::Arrival::Packet { .. }));
        second.receive(&b[..size], TIME).expect("a packet of the opening");
    }
    (ours, second)
}

/// An invoke with actor and timeout, for ours and for the others.
fn invoke(payload: &[u8]) -> (relay::ToSend<'_>, Invoke<&[u8]>) {
    let (number, actor, timeout, tl2) = (77, Some(-5), Some(300), false);
    let ours = relay::Invoke { number, actor, timeout, tl2, payload };
    let other = Invoke { number, actor, timeout, tl2, payload };
    (relay::ToSend::Message(relay::Message::Invoke(ours)), other)
}

/// That invoke, as a user would write it by hand: a bound is checked once.
fn plain<const PADDED: bool>(
    buffer: &mut [u8],
    number: u32,
    invoke: &Invoke<&[u8]>,
    sum: impl Fn(&[u8]) -> u32,
) -> Option<usize> {
    let length = 12 + 8 + 20 + invoke.payload.len() + 4;
    let size = if PADDED { length.next_multiple_of(4) } else { length };
    let (packet, zeros) = buffer.get_mut(..size)?.split_at_mut(length);
    let (front, end) = packet.split_at_mut(length - 4);
    front[..4].copy_from_slice(&(length as u32).to_le_bytes());
    front[4..8].copy_from_slice(&number.to_le_bytes());
    front[8..12].copy_from_slice(&0x2374_df3du32.to_le_bytes());
    front[12..20].copy_from_slice(&invoke.number.to_le_bytes());
    front[20..24].copy_from_slice(&0xf0a5_acf7u32.to_le_bytes());
    front[24..32].copy_from_slice(&invoke.actor?.to_le_bytes());
    front[32..36].copy_from_slice(&0x80_0000u32.to_le_bytes());
    front[36..40].copy_from_slice(&invoke.timeout?.to_le_bytes());
    front[40..].copy_from_slice(invoke.payload);
    end.copy_from_slice(&sum(front).to_le_bytes());
    zeros.fill(0);
    Some(size)
}

/// The words behind so many bytes, as a user would write them by hand.
fn plain_flush(buffer: &mut [u8], wrote: usize) -> Option<usize> {
    let size = wrote.next_multiple_of(16) - wrote;
    for word in buffer.get_mut(..size)?.chunks_exact_mut(4) {
        word.copy_from_slice(&4u32.to_le_bytes());
    }
    Some(size)
}

/// Nanoseconds a call.
fn time(mut send: impl FnMut() -> usize) -> f64 {
    let start = Instant::now();
    for _ in 0..CALLS {
        black_box(send());
    }
    start.elapsed().as_nanos() as f64 / CALLS as f64
}

/// Takes turns; the rounds of each candidate, shortest first.
fn rounds(candidates: &mut [&mut dyn FnMut() -> f64]) -> Vec<Vec<f64>> {
    let mut rounds = vec![Vec::new(); candidates.len()];
    for _ in 0..ROUNDS {
        for (candidate, rounds) in candidates.iter_mut().zip(&mut rounds) {
            rounds.push(candidate());
        }
    }
    for rounds in &mut rounds {
        rounds.sort_by(f64::total_cmp);
    }
    rounds
}

/// Rows of ours, the second program, and plain Rust, with so many decimal places.
fn print(name: &str, rounds: &[Vec<f64>], places: usize) {
    for (which, at) in [("shortest", 0), ("median", ROUNDS / 2)] {
        let ours = rounds[0][at];
        print!("| {name}, {which} | {ours:.places$} |");
        for other in &rounds[1..] {
            print!(" {:.places$} ({:.2}) |", other[at], other[at] / ours);
        }
        println!();
    }
}

fn measure<const PADDED: bool>(name: &str, crc32c: bool, payload: &[u8]) {
    let now = relay::Moment { time: TIME };
    let (mut ours, mut second) = opened(crc32c, PADDED);
    let tables = tables(if crc32c { 0x82F6_3B78 } else { 0xEDB8_8320 });
    let (here, there) = invoke(payload);
    let message = Outgoing::Message(Message::Invoke(there));
    let (mut a, mut b, mut c) = ([0; ROOM], [0; ROOM], [0; ROOM]);
    let mut number = 0u32;
    for _ in 0..100 {
        let size = ours.send(&mut a, here, now).expect("an open link");
        assert_eq!(second.send(&message, &mut b), Ok(size));
        assert_eq!(plain::<PADDED>(&mut c, number, &there, |s| sliced(&tables, s)), Some(size));
        assert!(a == b && a == c);
        number += 1;
    }
    let mut ours = || time(|| ours.send(black_box(&mut a), black_box(here), now).expect("an open link"));
    let mut plain = || {
        time(|| {
            number = number.wrapping_add(1);
            plain::<PADDED>(black_box(&mut c), number, black_box(&there), |s| sliced(&tables, s)).expect("room")
        })
    };
    let mut second = || time(|| second.send(black_box(&message), &mut b).expect("an open link"));
    print(name, &rounds(&mut [&mut ours, &mut second, &mut plain]), 0);
}

fn measure_flush() {
    let (mut link, mut second) = opened(true, true);
    let (mut a, mut b, mut c) = ([0; 16], [0; 16], [0; 16]);
    let now = relay::Moment { time: TIME };
    let wrote = 44 + link.send(&mut [0; 24], relay::ToSend::Ping { id: 1 }, now).expect("an open link");
    second.send(&Outgoing::Ping(1), &mut [0; 24]).expect("an open link");
    assert_eq!(link.clone().flush(&mut a), Ok(12));
    assert_eq!(second.clone().flush(&mut b), Ok(12));
    assert_eq!(plain_flush(&mut c, wrote), Some(12));
    assert!(a == b && a == c);
    let mut ours = || time(|| black_box(&link).clone().flush(black_box(&mut a)).expect("an open link"));
    let mut second = || time(|| black_box(&second).clone().flush(black_box(&mut b)).expect("an open link"));
    let mut plain = || time(|| plain_flush(black_box(&mut c), black_box(wrote)).expect("room"));
    print("relay_flush, three words", &rounds(&mut [&mut ours, &mut second, &mut plain]), 1);
}

fn main() {
    let mut state = 1u32;
    let longer: Vec<u8> = (0..1024 + 1)
        .map(|_| {
            state = state.wrapping_mul(1_664_525).wrapping_add(1_013_904_223);
            (state >> 24) as u8
        })
        .collect();
    println!("\nNanoseconds to send an invoke (padded: a byte more), and how many times ours is as fast.\n");
    println!("| checksum, payload | relay_send | second program | Rust, eight tables |\n|---|---|---|---|");
    measure::<false>("CRC-32, 1 KiB", false, &longer[..1024]);
    measure::<true>("CRC-32, 1 KiB, padded", false, &longer);
    measure::<false>("CRC-32C, 1 KiB", true, &longer[..1024]);
    measure::<true>("CRC-32C, 1 KiB, padded", true, &longer);
    measure::<false>("CRC-32, 64 bytes", false, &longer[..64]);
    measure::<true>("CRC-32, 64 bytes, padded", false, &longer[..65]);
    measure_flush();
}
