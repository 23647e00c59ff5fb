//! AES-256 in CBC mode beside OpenSSL's and the second program, in one run: enciphering and
//! deciphering where the bytes stand, and the making of round keys.
//!
//! The candidates take turns, and the shortest time of each counts. Before that their bytes are
//! compared. Two more processes of this program, whose OpenSSL has no instructions for AES and none
//! at all that a processor may lack, take their turns with the candidates of the first.
//!
//! Keys are set once, and the vector goes on from call to call; so do the bytes, which are not
//! cleared: each call works on what the last one left. The second program makes its round keys in
//! each call.

use reference::cipher;
use std::hint::black_box;
use std::time::Instant;

#[path = "evp.rs"]
mod evp;
#[path = "turns.rs"]
mod turns;
use evp::Evp;
use turns::{Turns, PORTABLE};

#[repr(C)]
#[derive(Clone, Copy)]
struct CipherKey {
    bytes: [u8; 32],
}

#[repr(C)]
#[derive(Clone, Copy)]
struct RoundKeys {
    bytes: [u8; 240],
}

#[repr(C)]
#[derive(Clone, Copy)]
struct Vector {
    bytes: [u8; 16],
}

#[repr(C)]
struct Chained {
    refusal: u8,
    vector: Vector,
}

extern "C" {
    fn relay_encipher_keys(key: CipherKey) -> RoundKeys;
    fn relay_decipher_keys(key: CipherKey) -> RoundKeys;
    fn relay_encipher(bytes: *mut u8, n: usize, keys: RoundKeys, vector: Vector) -> Chained;
    fn relay_decipher(bytes: *mut u8, n: usize, keys: RoundKeys, vector: Vector) -> Chained;
}

/// Neither instructions for AES nor the multiplication that goes with them.
const NO_AES: &str = "~0x200000200000000";

/// So many bytes, or a making of round keys.
#[derive(Clone, Copy)]
enum Work {
    Bytes(usize),
    Keys,
}

/// Whether it is of enciphering.
const WORKS: [(&str, bool, Work); 10] = [
    ("enciphering, 64 bytes", true, Work::Bytes(64)),
    ("enciphering, 1 KiB", true, Work::Bytes(1024)),
    ("enciphering, 16 KiB", true, Work::Bytes(16_384)),
    ("enciphering, 64 KiB", true, Work::Bytes(LONGEST)),
    ("deciphering, 64 bytes", false, Work::Bytes(64)),
    ("deciphering, 1 KiB", false, Work::Bytes(1024)),
    ("deciphering, 16 KiB", false, Work::Bytes(16_384)),
    ("deciphering, 64 KiB", false, Work::Bytes(LONGEST)),
    ("round keys, enciphering", true, Work::Keys),
    ("round keys, deciphering", false, Work::Keys),
];
const LONGEST: usize = 65_536;
const ROUNDS: u32 = 200;
/// The second program takes a turn in one round of so many.
const RARELY: u32 = 10;

const KEY: [u8; 32] = *b"ABCDEFGHIJKLMNOPQRSTUVWXYZ012345";
const VECTOR: [u8; 16] = *b"abcdefghijklmnop";

/// One direction with one's round keys and vector.
trait Candidate {
    fn new(enciphers: bool) -> Self;
    fn go_on(&mut self, bytes: &mut [u8]);
    fn make_keys(&mut self, key: &[u8; 32]);
}

struct Ours {
    enciphers: bool,
    keys: RoundKeys,
    vector: Vector,
}

impl Candidate for Ours {
    fn new(enciphers: bool) -> Ours {
        let keys = RoundKeys { bytes: [0; 240] };
        let mut ours = Ours { enciphers, keys, vector: Vector { bytes: VECTOR } };
        ours.make_keys(&KEY);
        ours
    }

    fn go_on(&mut self, bytes: &mut [u8]) {
        let (start, n) = (bytes.as_mut_ptr(), bytes.len());
        let chained = unsafe {
            match self.enciphers {
                true => relay_encipher(start, n, self.keys, self.vector),
                false => relay_decipher(start, n, self.keys, self.vector),
            }
        };
        assert_eq!(chained.refusal, 0);
        self.vector = chained.vector;
    }

    fn make_keys(&mut self, key: &[u8; 32]) {
        let key = CipherKey { bytes: *key };
        self.keys = unsafe {
            match self.enciphers {
                true => relay_encipher_keys(key),
                false => relay_decipher_keys(key),
            }
        };
    }
}

impl Candidate for Evp {
    fn new(enciphers: bool) -> Evp {
        Evp::new(enciphers, &KEY, &VECTOR)
    }

    fn go_on(&mut self, bytes: &mut [u8]) {
        Evp::go_on(self, bytes);
    }

    fn make_keys(&mut self, key: &[u8; 32]) {
        self.set_key(key);
    }
}

struct Second {
    call: fn(&[u8; 32], &mut [u8; 16], &mut [u8]) -> Result<(), reference::refusal::Refusal>,
    vector: [u8; 16],
}

impl Candidate for Second {
    fn new(enciphers: bool) -> Second {
        let call = if enciphers { cipher::encipher } else { cipher::decipher };
        Second { call, vector: VECTOR }
    }

    fn go_on(&mut self, bytes: &mut [u8]) {
        (self.call)(&KEY, &mut self.vector, bytes).expect("whole blocks");
    }

    /// A call without bytes makes them, and no more.
    fn make_keys(&mut self, key: &[u8; 32]) {
        (self.call)(key, &mut self.vector, &mut []).expect("no blocks");
    }
}

/// Nanoseconds a call.
fn time<C: Candidate>(number: usize, bytes: &mut [u8]) -> f64 {
    let (_, enciphers, work) = WORKS[number];
    let mut candidate = C::new(enciphers);
    let length = match work {
        Work::Bytes(n) => n,
        Work::Keys => 1024,
    };
    let calls = 1 + 100_000 / (length + 100);
    let start = Instant::now();
    for _ in 0..calls {
        match work {
            Work::Bytes(n) => candidate.go_on(black_box(&mut bytes[..n])),
            Work::Keys => candidate.make_keys(black_box(&KEY)),
        }
        black_box(&mut candidate);
    }
    start.elapsed().as_nanos() as f64 / calls as f64
}

/// The second program's bytes are also the candidate's, in two calls, each way.
fn compare<C: Candidate>(bytes: &[u8]) {
    for enciphers in [true, false] {
        let (mut expected, mut out) = (bytes[..4096].to_vec(), bytes[..4096].to_vec());
        let (mut second, mut candidate) = (Second::new(enciphers), C::new(enciphers));
        candidate.make_keys(&KEY);
        for part in [0..1600, 1600..4096] {
            second.go_on(&mut expected[part.clone()]);
            candidate.go_on(&mut out[part]);
        }
        assert!(out == expected && out != bytes[..4096]);
    }
}

fn measure(bytes: &mut [u8], without: &mut [Turns; 2]) {
    println!("\nNanoseconds a call of the cipher, and how many times ours is as fast.\n");
    println!("| call | ours | OpenSSL, portable | OpenSSL, no AES instructions | OpenSSL | second program |");
    println!("|---|---|---|---|---|---|");
    for (number, (name, ..)) in WORKS.into_iter().enumerate() {
        let mut best = [f64::INFINITY; 5];
        for round in 0..ROUNDS {
            best[0] = best[0].min(time::<Ours>(number, bytes));
            best[1] = best[1].min(without[0].time(number));
            best[2] = best[2].min(without[1].time(number));
            best[3] = best[3].min(time::<Evp>(number, bytes));
            if round % RARELY == 0 {
                best[4] = best[4].min(time::<Second>(number, bytes));
            }
        }
        print!("| {name} | {:.0} |", best[0]);
        for other in &best[1..] {
            print!(" {other:.0} ({:.2}) |", other / best[0]);
        }
        println!();
    }
}

fn main() {
    let mut state = 1u32;
    let mut byte = || {
        state = state.wrapping_mul(1_664_525).wrapping_add(1_013_904_223);
        (state >> 24) as u8
    };
    let mut bytes: Vec<u8> = (0..LONGEST).map(|_| byte()).collect();
    compare::<Evp>(&bytes);
    if turns::are_asked() {
        return turns::take(|number| time::<Evp>(number, &mut bytes));
    }
    compare::<Ours>(&bytes);
    let mut without = [PORTABLE, NO_AES].map(Turns::start);
    measure(&mut bytes, &mut without);
    without.into_iter().for_each(Turns::end);
}
