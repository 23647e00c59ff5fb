//! Receiving a stream of packets with relay_receive, with the second program's receive, and with two receives in plain
//! Rust, in one run; and the checksum alone over the same bytes.
//!
//! The stream has 4,096 packets with bodies of 1 KiB, as a client sends them after an opening; all receive it as the
//! server. For each checksum the candidates take turns, and the shortest and the median round of each are printed, in
//! processor time, so that another load on the machine counts for less. Before that their answers are compared. The
//! stream is longer than the second-level cache, for every candidate alike.
//!
//! On a padded link the bodies have one byte more: three zeros follow each packet, and three words stand before it, the
//! most that a flush behind each writes.

use reference::link::{Link as Second, Outgoing, Received, Settings as SecondSettings};
use reference::message::{Invoke, Message, Side, Span};
use std::hint::black_box;

#[path = "plain_crc.rs"]
mod plain_crc;
#[path = "plain_link.rs"]
mod plain_link;
use plain_crc::{bytewise, sliced, tables};
use plain_link::Plain;

#[repr(C)]
#[derive(Clone, Copy)]
struct Settings {
    server: bool,
    allows: bool,
    lowest: u8,
    padded: bool,
    cipher: bool,
    only: bool,
}

#[repr(C)]
#[derive(Clone, Copy)]
struct Moment {
    time: u32,
}

#[repr(C)]
#[derive(Clone, Copy)]
struct Link {
    set: Settings,
    closed: bool,
    crc32c: bool,
    version: u8,
    stage: u8,
    phase: u8,
    awaits: bool,
    owes: bool,
    ciphered: bool,
    keyid: u32,
    sends: u32,
    gets: u32,
    awaited: u64,
    owed: u64,
}

#[repr(C)]
struct RelaySetUp {
    refusal: u8,
    link: Link,
}

#[repr(C)]
#[derive(Clone, Copy, Debug, Default, PartialEq)]
struct RelayArrival {
    tag: u8,
    refusal: u8,
    kind: u32,
    more: usize,
    consumed: usize,
    at: usize,
    len: usize,
}

extern "C" {
    fn relay_set_up(set: Settings) -> RelaySetUp;
    fn relay_receive(link: &mut Link, bytes: *const u8, length: usize, moment: Moment) -> RelayArrival;
    fn relay_crc32(bytes: *const u8, length: usize) -> u32;
    fn relay_crc32c(bytes: *const u8, length: usize) -> u32;
    fn clock_gettime(clock: i32, time: &mut [i64; 2]) -> i32;
}

/// The processor time of this thread so far, in nanoseconds (Linux's clock 3, on 64 bits).
fn processor_time() -> f64 {
    let mut time = [0; 2];
    assert_eq!(unsafe { clock_gettime(3, &mut time) }, 0);
    time[0] as f64 * 1e9 + time[1] as f64
}

const PACKETS: usize = 4096;
const BODY: usize = 1024;
/// Before each packet on a padded link.
const WORDS: usize = 3;
const ROUNDS: usize = 25;
const TIME: u32 = 1_700_000_000;

impl Link {
    fn receive(&mut self, bytes: &[u8]) -> RelayArrival {
        unsafe { relay_receive(self, bytes.as_ptr(), bytes.len(), Moment { time: TIME }) }
    }

    /// What a send of the opening does to the link, as far as receiving sees it.
    fn sent(&mut self) {
        self.stage += 1;
        self.sends = self.sends.wrapping_add(1);
    }
}

/// The second program's answer in the fields of ours.
fn second(link: &mut Second, bytes: &[u8]) -> RelayArrival {
    let none = RelayArrival::default();
    match link.receive(bytes, TIME) {
        Err(refusal) => RelayArrival { refusal: refusal.number(), ..none },
        Ok(Received::Wait(more)) => RelayArrival { tag: 1, more, ..none },
        Ok(Received::Packet { packet_type, consumed, body: Span { at, len }, .. }) => {
            RelayArrival { tag: 2, kind: packet_type, consumed, at, len, ..none }
        }
    }
}

/// A server of ours and one of the second program after the same opening, and what the client then sends.
fn opened(crc32c: bool, padded: bool, payload: &[u8]) -> (Link, Second, Vec<u8>) {
    let fresh = |side| Second::set_up(SecondSettings { padded, ..SecondSettings::new(side, crc32c) });
    let mut client = fresh(Side::Client).expect("a link");
    let mut server = fresh(Side::Server).expect("a link");
    let set = Settings { server: true, allows: crc32c, lowest: 0, padded, cipher: false, only: false };
    let mut ours = unsafe { relay_set_up(set) }.link;
    let mut buffer = vec![0; 2 * BODY];
    for step in [Outgoing::Nonce(TIME, [7; 16], [0; 32]), Outgoing::Handshake([1; 12], [2; 12])] {
        let size = client.send(&step, &mut buffer).expect("the client's turn");
        assert_eq!(ours.receive(&buffer[..size]), second(&mut server, &buffer[..size]));
        let size = server.send(&step, &mut buffer).expect("the server's turn");
        assert_eq!(second(&mut client, &buffer[..size]).tag, 2);
        ours.sent();
    }
    assert!(ours.stage == 4 && ours.crc32c == crc32c);
    let invoke = Message::Invoke(Invoke { number: 77, actor: None, timeout: None, tl2: false, payload });
    let mut stream = Vec::new();
    for _ in 0..PACKETS {
        let size = client.send(&Outgoing::Message(invoke), &mut buffer).expect("an open link");
        if padded {
            stream.extend([4, 0, 0, 0].repeat(WORDS));
        }
        stream.extend(&buffer[..size]);
    }
    (ours, server, stream)
}

/// All answers on the stream, for one candidate.
fn answers(stream: &[u8], mut receive: impl FnMut(&[u8]) -> RelayArrival) -> usize {
    let (mut at, mut packets) = (0, 0);
    while at < stream.len() {
        let arrival = receive(black_box(&stream[at..]));
        assert_eq!(arrival.tag, 2);
        at += arrival.consumed;
        packets += 1;
    }
    packets
}

/// The candidates give the same answers on the stream, on its first packet cut at every byte, and with a byte changed.
fn compare<const PADDED: bool>(ours: Link, server: &Second, stream: &[u8], sum: impl Fn(&[u8]) -> u32) {
    let all = |ours: &mut Link, server: &mut Second, plain: &mut Plain<PADDED>, bytes: &[u8]| {
        let answer = ours.receive(bytes);
        assert_eq!(answer, plain.receive(bytes, &sum));
        assert_eq!(answer, second(server, bytes));
        answer.consumed
    };
    let packet = stream.len() / PACKETS;
    for n in 0..=packet {
        all(&mut ours.clone(), &mut server.clone(), &mut Plain::default(), &stream[..n]);
        let mut changed = stream[..packet].to_vec();
        changed[n % packet] ^= 1;
        all(&mut ours.clone(), &mut server.clone(), &mut Plain::default(), &changed);
    }
    let (mut ours, mut server, mut plain) = (ours, server.clone(), Plain::default());
    let mut at = 0;
    while at < stream.len() {
        at += all(&mut ours, &mut server, &mut plain, &stream[at..]);
    }
}

/// The shortest and the median round of each candidate, in nanoseconds a packet.
fn times(candidates: &mut [Box<dyn FnMut() -> usize + '_>]) -> Vec<(f64, f64)> {
    let mut rounds = vec![Vec::new(); candidates.len()];
    for _ in 0..ROUNDS {
        for (candidate, rounds) in candidates.iter_mut().zip(&mut rounds) {
            let start = processor_time();
            assert_eq!(black_box(candidate()), PACKETS);
            rounds.push((processor_time() - start) / PACKETS as f64);
        }
    }
    for rounds in &mut rounds {
        rounds.sort_by(f64::total_cmp);
    }
    rounds.iter().map(|rounds| (rounds[0], rounds[ROUNDS / 2])).collect()
}

fn measure<const PADDED: bool>(name: &str, crc32c: bool, payload: &[u8]) {
    let (ours, server, stream) = opened(crc32c, PADDED, payload);
    let stream = &stream[..];
    let tables = tables(if crc32c { 0x82F6_3B78 } else { 0xEDB8_8320 });
    let before = if PADDED { 4 * WORDS } else { 0 };
    let summed = before..before + payload.len() + 20;
    let alone = |s: &[u8]| unsafe {
        if crc32c { relay_crc32c(s.as_ptr(), s.len()) } else { relay_crc32(s.as_ptr(), s.len()) }
    };
    compare::<PADDED>(ours, &server, stream, |s| sliced(&tables, s));
    let mut candidates: Vec<Box<dyn FnMut() -> usize + '_>> = vec![
        Box::new(|| {
            let mut link = ours;
            answers(stream, |s| link.receive(s))
        }),
        Box::new(|| stream.chunks(stream.len() / PACKETS).map(|s| black_box(alone(&s[summed.clone()]))).count()),
        // Not before ours: it takes so long that the stream may have left the caches.
        Box::new(|| {
            let mut link = server.clone();
            answers(stream, |s| second(&mut link, s))
        }),
        Box::new(|| {
            let mut link = Plain::<PADDED>::default();
            answers(stream, |s| link.receive(s, |s| !bytewise(&tables[0], !0, s)))
        }),
        Box::new(|| {
            let mut link = Plain::<PADDED>::default();
            answers(stream, |s| link.receive(s, |s| sliced(&tables, s)))
        }),
    ];
    let best = times(&mut candidates);
    print(&format!("{name}, shortest"), &best.iter().map(|t| t.0).collect::<Vec<_>>());
    print(&format!("{name}, median"), &best.iter().map(|t| t.1).collect::<Vec<_>>());
}

/// A row of ours, the checksum alone, the second program, and the two in plain Rust.
fn print(name: &str, times: &[f64]) {
    print!("| {name} | {:.0} | {:.0} |", times[0], times[1]);
    for other in &times[2..] {
        print!(" {other:.0} ({:.2}) |", other / times[0]);
    }
    println!();
}

fn main() {
    let mut state = 1u32;
    // with its query number, a body of 1 KiB and a byte
    let longer: Vec<u8> = (0..BODY - 8 + 1)
        .map(|_| {
            state = state.wrapping_mul(1_664_525).wrapping_add(1_013_904_223);
            (state >> 24) as u8
        })
        .collect();
    let payload = &longer[..BODY - 8];
    println!("\nNanoseconds a packet, its body 1 KiB (padded: a byte more), and how many times ours is as fast.\n");
    println!("| checksum | relay_receive | checksum alone | second program | Rust, one table | Rust, eight tables |");
    println!("|---|---|---|---|---|---|");
    measure::<false>("CRC-32", false, payload);
    measure::<true>("CRC-32, padded", false, &longer);
    measure::<false>("CRC-32C", true, payload);
    measure::<true>("CRC-32C, padded", true, &longer);
}
