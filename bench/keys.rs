//! MD5, SHA-1 and the derivation of keys, beside OpenSSL's hashes and the second program, in one
//! run.
//!
//! The candidates take turns, and the shortest time of each counts. Before that their answers are
//! compared. A second process of this program, whose OpenSSL may not use instructions that a
//! processor may lack, those for SHA-1 among them, takes its turns with the candidates of the first.

use reference::hash;
use reference::keys::{derive, Peer, Request};
use reference::message::Side;
use std::hint::black_box;
use std::time::Instant;

#[path = "openssl.rs"]
mod openssl;
#[path = "turns.rs"]
mod turns;
use turns::{Turns, PORTABLE};

#[repr(C)]
struct Md5Digest {
    bytes: [u8; 16],
}

#[repr(C)]
struct Sha1Digest {
    bytes: [u8; 20],
}

#[repr(C)]
#[derive(Clone, Copy)]
struct RelayEnd {
    random: [u8; 16],
    time: u32,
    ip: u32,
    port: u16,
}

#[repr(C)]
#[derive(Clone, Copy)]
struct Derivation {
    version: u8,
    server: bool,
    ends: [RelayEnd; 2],
    shared: [u8; 32],
}

#[repr(C)]
struct Derived {
    refusal: u8,
    size: usize,
    key: [u8; 32],
    vector: [u8; 16],
}

extern "C" {
    fn relay_md5(bytes: *const u8, length: usize) -> Md5Digest;
    fn relay_sha1(bytes: *const u8, length: usize) -> Sha1Digest;
    fn relay_derive(
        buffer: *mut u8,
        room: usize,
        what: Derivation,
        key: *const u8,
        length: usize,
    ) -> Derived;
}

/// A hash of so many bytes, or a derivation.
#[derive(Clone, Copy)]
enum Work {
    Md5(usize),
    Sha1(usize),
    Derivation,
}

const WORKS: [(&str, Work); 7] = [
    ("MD5, 64 bytes", Work::Md5(64)),
    ("MD5, 1 KiB", Work::Md5(1024)),
    ("MD5, 16 KiB", Work::Md5(16_384)),
    ("SHA-1, 64 bytes", Work::Sha1(64)),
    ("SHA-1, 1 KiB", Work::Sha1(1024)),
    ("SHA-1, 16 KiB", Work::Sha1(16_384)),
    ("derivation", Work::Derivation),
];
const ROUNDS: u32 = 400;
/// Of version 2 with a key of 32 bytes.
const MESSAGE: usize = 150;

const PEER: Peer = Peer { random: *b"ABCDEFGHIJKLMNOP", time: 1_700_000_000, ip: 0, port: 0 };
const RELAY_END: RelayEnd =
    RelayEnd { random: PEER.random, time: PEER.time, ip: PEER.ip, port: PEER.port };
const SHARED: [u8; 32] = [9; 32];

/// A digest at its front, or a key and a vector.
type Output = [u8; 48];
type Candidate = fn(Work, &mut Bytes, &mut Output);

struct Bytes {
    hashed: Vec<u8>,
    key: [u8; 32],
    /// The init message, which a derivation writes.
    message: [u8; MESSAGE],
}

impl Bytes {
    fn new() -> Bytes {
        let mut state = 1u32;
        let mut byte = || {
            state = state.wrapping_mul(1_664_525).wrapping_add(1_013_904_223);
            (state >> 24) as u8
        };
        let mut bytes = Bytes {
            hashed: (0..16_384).map(|_| byte()).collect(),
            key: std::array::from_fn(|_| byte()),
            message: [0; MESSAGE],
        };
        // OpenSSL hashes the message without writing it.
        second(Work::Derivation, &mut bytes, &mut [0; 48]);
        bytes
    }
}

fn ours(work: Work, bytes: &mut Bytes, out: &mut Output) {
    let start = bytes.hashed.as_ptr();
    match work {
        Work::Md5(n) => out[..16].copy_from_slice(&unsafe { relay_md5(start, n) }.bytes),
        Work::Sha1(n) => out[..20].copy_from_slice(&unsafe { relay_sha1(start, n) }.bytes),
        Work::Derivation => {
            let what =
                Derivation { version: 2, server: false, ends: [RELAY_END; 2], shared: SHARED };
            let (key, message) = (&bytes.key, &mut bytes.message);
            let derived = unsafe {
                relay_derive(message.as_mut_ptr(), MESSAGE, what, key.as_ptr(), key.len())
            };
            assert!(derived.refusal == 0 && derived.size == MESSAGE);
            out[..32].copy_from_slice(&derived.key);
            out[32..].copy_from_slice(&derived.vector);
        }
    }
}

fn second(work: Work, bytes: &mut Bytes, out: &mut Output) {
    match work {
        Work::Md5(n) => out[..16].copy_from_slice(&hash::md5(&bytes.hashed[..n])),
        Work::Sha1(n) => out[..20].copy_from_slice(&hash::sha1(&bytes.hashed[..n])),
        Work::Derivation => {
            let (sender, key) = (Side::Client, &bytes.key[..]);
            let (client, server, shared) = (PEER, PEER, SHARED);
            let request = Request { version: 2, sender, client, server, key, shared };
            let keys = derive(&request, &mut bytes.message).expect("keys");
            out[..32].copy_from_slice(&keys.key);
            out[32..].copy_from_slice(&keys.vector);
        }
    }
}

fn by_openssl(work: Work, bytes: &mut Bytes, out: &mut Output) {
    match work {
        Work::Md5(n) => openssl::md5(&bytes.hashed[..n], out),
        Work::Sha1(n) => openssl::sha1(&bytes.hashed[..n], out),
        Work::Derivation => {
            openssl::md5(&bytes.message[1..], out);
            openssl::sha1(&bytes.message, &mut out[12..]);
            openssl::md5(&bytes.message[2..], &mut out[32..]);
        }
    }
}

/// Nanoseconds a call.
fn time(candidate: Candidate, work: Work, bytes: &mut Bytes) -> f64 {
    let length = match work {
        Work::Md5(n) | Work::Sha1(n) => n,
        Work::Derivation => 3 * MESSAGE,
    };
    let calls = 1 + 100_000 / (length + 100);
    let mut out = [0; 48];
    let start = Instant::now();
    for _ in 0..calls {
        candidate(black_box(work), black_box(bytes), &mut out);
        black_box(&out);
    }
    start.elapsed().as_nanos() as f64 / calls as f64
}

/// The second program's answer is also every other candidate's.
fn compare(candidates: &[Candidate], bytes: &mut Bytes) {
    for (name, work) in WORKS {
        for candidate in candidates {
            let (mut expected, mut out) = ([0; 48], [0; 48]);
            second(work, bytes, &mut expected);
            candidate(work, bytes, &mut out);
            assert_eq!(out, expected, "{name}");
        }
    }
}

fn measure(bytes: &mut Bytes, portable: &mut Turns) {
    println!("\nNanoseconds a call, and how many times ours is as fast.\n");
    println!("| call | ours | OpenSSL, portable | OpenSSL | second program |");
    println!("|---|---|---|---|---|");
    for (index, (name, work)) in WORKS.into_iter().enumerate() {
        let mut best = [f64::INFINITY; 4];
        for _ in 0..ROUNDS {
            best[0] = best[0].min(time(ours, work, bytes));
            best[1] = best[1].min(portable.time(index));
            best[2] = best[2].min(time(by_openssl, work, bytes));
            best[3] = best[3].min(time(second, work, bytes));
        }
        print!("| {name} | {:.0} |", best[0]);
        for other in &best[1..] {
            print!(" {other:.0} ({:.2}) |", other / best[0]);
        }
        println!();
    }
}

fn main() {
    let mut bytes = Bytes::new();
    if turns::are_asked() {
        compare(&[by_openssl], &mut bytes);
        return turns::take(|index| time(by_openssl, WORKS[index].1, &mut bytes));
    }
    compare(&[ours, by_openssl], &mut bytes);
    let mut portable = Turns::start(PORTABLE);
    measure(&mut bytes, &mut portable);
    portable.end();
}
