//! What the cipher costs a link: sending and receiving invokes on a clear link, on a padded one and
//! on a ciphered one, in one run, through the Rust wrapper.
//!
//! A packet is sent, flushed and enciphered; at the other end its blocks are deciphered and it is
//! received. A clear link only sends and receives. The kinds of link take turns, and the shortest
//! and the median round of each are printed. Buffers are filled once before and are not cleared
//! between calls; the streams that are received are copied anew before each round, outside the time.

use relay::cipher::{Decipher, Encipher};
use relay::keys::Keys;
use relay::{Arrival, Cipher, Invoke, Link, Message, Moment, NetPid, Settings, Side, ToSend};
use std::hint::black_box;
use std::time::Instant;

const NOW: Moment = Moment { time: 1_700_000_000 };
const ROUNDS: usize = 41;
/// A round's packets have some so many bytes.
const STREAM: usize = 131_072;
/// More than a packet has besides its payload, and the words of a flush.
const AROUND: usize = 64;
const KEY: [u8; 32] = *b"ABCDEFGHIJKLMNOPQRSTUVWXYZ012345";
const VECTOR: [u8; 16] = *b"abcdefghijklmnop";
const SIZES: [(&str, usize); 3] = [("64 bytes", 64), ("1 KiB", 1024), ("16 KiB", 16_384)];

#[derive(Clone, Copy, PartialEq)]
enum Kind {
    Clear,
    Padded,
    Ciphered,
}

const KINDS: [Kind; 3] = [Kind::Clear, Kind::Padded, Kind::Ciphered];

/// Both ends after the opening. Its own bytes are not enciphered: the links do not know.
fn opened(kind: Kind) -> [Link; 2] {
    let cipher = if kind == Kind::Ciphered { Cipher::CipherOnly } else { Cipher::ClearOnly };
    let mut ends = [Side::Client, Side::Server].map(|side| {
        let settings = Settings::new(side, true).with_padded(kind == Kind::Padded);
        Link::with_key(settings.with_cipher(cipher), &KEY).expect("a link")
    });
    let pid = NetPid { ip: 1, port: 2, pid: 3, start: 4 };
    let nonce = ToSend::NonceWithPoint { random: [7; 16], point: [8; 32] };
    let handshake = ToSend::Handshake { sender: pid, peer: pid };
    let mut buffer = [0; 128];
    for (i, what) in [nonce, nonce, handshake, handshake].into_iter().enumerate() {
        let mut size = ends[i % 2].send(&mut buffer, what, NOW).expect("its turn");
        let arrival = ends[1 - i % 2].receive(&buffer[..size], NOW);
        assert!(matches!(arrival, Arrival::Packet { .. }));
        size += ends[i % 2].flush(&mut buffer[size..]).expect("an open link");
        assert!(i < 2 || kind == Kind::Clear || size % 16 == 0);
    }
    assert!(ends.iter().all(|end| end.is_open() && end.is_ciphered() == (kind == Kind::Ciphered)));
    ends
}

fn keys(message: &mut [u8]) -> Keys<'_> {
    Keys { message, key: KEY, vector: VECTOR }
}

/// The clear link does not flush.
struct Sender {
    link: Link,
    kind: Kind,
    cipher: Encipher,
}

impl Sender {
    /// The size of what goes out.
    fn send(&mut self, buffer: &mut [u8], payload: &[u8]) -> usize {
        let (actor, timeout) = (Some(-5), Some(300));
        let invoke = Invoke { number: 77, actor, timeout, tl2: false, payload };
        let what = ToSend::Message(Message::Invoke(invoke));
        let mut size = self.link.send(buffer, what, NOW).expect("an open link");
        if self.kind != Kind::Clear {
            size += self.link.flush(&mut buffer[size..]).expect("an open link");
        }
        if self.kind == Kind::Ciphered {
            self.cipher.encipher(&mut buffer[..size]).expect("whole blocks");
        }
        size
    }
}

struct Receiver {
    link: Link,
    kind: Kind,
    cipher: Decipher,
}

impl Receiver {
    /// All of a stream whose packets came one by one, `size` bytes each with the words of a flush,
    /// which are read with the next packet. How many had this payload.
    fn receive(&mut self, stream: &mut [u8], size: usize, payload: usize) -> usize {
        let (mut at, mut packets) = (0, 0);
        for start in (0..stream.len()).step_by(size) {
            let end = start + size;
            if self.kind == Kind::Ciphered {
                self.cipher.decipher(&mut stream[start..end]).expect("whole blocks");
            }
            match self.link.receive(black_box(&stream[at..end]), NOW) {
                Arrival::Packet { consumed, body, .. } if body.len() == 28 + payload => {
                    at += consumed;
                    packets += 1;
                }
                other => panic!("{other:?}"),
            }
        }
        packets
    }
}

/// A link of one kind with a stream of packets of one payload.
struct Way {
    kind: Kind,
    ends: [Link; 2],
    payload: Vec<u8>,
    stream: Vec<u8>,
    size: usize,
    packets: usize,
}

impl Way {
    fn new(kind: Kind, payload: &[u8]) -> Way {
        let packets = STREAM / payload.len();
        let (ends, payload) = (opened(kind), payload.to_vec());
        let mut way = Way { kind, ends, payload, stream: Vec::new(), size: 0, packets };
        let (mut sender, mut buffer) = (way.sender(), way.buffer());
        for _ in 0..packets {
            way.size = sender.send(&mut buffer, &way.payload);
            way.stream.extend(&buffer[..way.size]);
        }
        assert_eq!(way.stream.len(), way.size * packets);
        way
    }

    fn buffer(&self) -> Vec<u8> {
        vec![0; self.payload.len() + AROUND]
    }

    fn sender(&self) -> Sender {
        let cipher = Encipher::new(&keys(&mut []));
        Sender { link: self.ends[0].clone(), kind: self.kind, cipher }
    }

    /// Nanoseconds a packet, as below.
    fn send(&self) -> f64 {
        let (mut sender, mut buffer) = (self.sender(), self.buffer());
        let start = Instant::now();
        for _ in 0..self.packets {
            black_box(sender.send(black_box(&mut buffer), black_box(&self.payload)));
        }
        start.elapsed().as_nanos() as f64 / self.packets as f64
    }

    fn receive(&self) -> f64 {
        let cipher = Decipher::new(&keys(&mut []));
        let mut receiver = Receiver { link: self.ends[1].clone(), kind: self.kind, cipher };
        let mut stream = self.stream.clone();
        let start = Instant::now();
        let packets = receiver.receive(&mut stream, self.size, self.payload.len());
        let elapsed = start.elapsed().as_nanos() as f64;
        assert_eq!(packets, self.packets);
        elapsed / packets as f64
    }
}

/// The ciphered stream is the second program's enciphering of the padded one.
fn compare(padded: &Way, ciphered: &Way) {
    let mut expected = padded.stream.clone();
    reference::cipher::encipher(&KEY, &mut VECTOR.clone(), &mut expected).expect("whole blocks");
    assert!(expected == ciphered.stream);
}

/// The shortest and the median round of each kind.
fn rounds(ways: &[Way], time: impl Fn(&Way) -> f64) -> [Vec<f64>; 2] {
    let mut all = vec![Vec::new(); ways.len()];
    for _ in 0..ROUNDS {
        for (way, times) in ways.iter().zip(&mut all) {
            times.push(time(way));
        }
    }
    all.iter_mut().for_each(|times| times.sort_by(f64::total_cmp));
    [0, ROUNDS / 2].map(|at| all.iter().map(|times| times[at]).collect())
}

/// Both rounds of all kinds, and how many times the clear link's the ciphered one's is.
fn print(name: &str, rounds: [Vec<f64>; 2]) {
    for (which, times) in ["shortest", "median"].into_iter().zip(rounds) {
        print!("| {name}, {which} |");
        for time in &times {
            print!(" {time:.0} |");
        }
        println!(" {:.1} |", times[2] / times[0]);
    }
}

fn main() {
    let mut state = 1u32;
    let mut byte = || {
        state = state.wrapping_mul(1_664_525).wrapping_add(1_013_904_223);
        (state >> 24) as u8
    };
    let payload: Vec<u8> = (0..16_384).map(|_| byte()).collect();
    println!("\nNanoseconds a packet: on a clear link, on a padded one with a flush behind it, and ciphered.\n");
    println!(
        "| packet, payload | clear | padded | ciphered | ciphered / clear |\n|---|---|---|---|---|"
    );
    for (name, size) in SIZES {
        let ways = KINDS.map(|kind| Way::new(kind, &payload[..size]));
        compare(&ways[1], &ways[2]);
        print(&format!("sent, {name}"), rounds(&ways, Way::send));
        print(&format!("received, {name}"), rounds(&ways, Way::receive));
    }
}
