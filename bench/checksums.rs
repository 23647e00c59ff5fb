//! Both checksums beside zlib's crc32, crc32fast (where it is installed) and a plain table-driven loop, in one run.
//!
//! At each length the candidates take turns, and the shortest time of each counts, so that another load on the machine
//! falls on all of them alike. Buffers are filled once and stay in the cache as far as they fit.

use std::hint::black_box;
use std::time::Instant;

extern "C" {
    fn relay_crc32(bytes: *const u8, length: usize) -> u32;
    fn relay_crc32c(bytes: *const u8, length: usize) -> u32;
    #[link_name = "crc32"]
    fn zlib_crc32(previous: u64, bytes: *const u8, length: u32) -> u64;
}

const LENGTHS: [usize; 6] = [16, 64, 256, 1024, 65_536, 16_777_216];

fn table(polynomial: u32) -> [u32; 256] {
    let mut table = [0; 256];
    for (byte, entry) in table.iter_mut().enumerate() {
        *entry = (0..8).fold(byte as u32, |c, _| (c >> 1) ^ if c & 1 == 1 { polynomial } else { 0 });
    }
    table
}

/// The loop that a user would write: one look-up a byte.
fn plain(table: &[u32; 256], bytes: &[u8]) -> u32 {
    !bytes.iter().fold(!0, |c, &b| (c >> 8) ^ table[((c ^ u32::from(b)) & 255) as usize])
}

type Candidate<'a> = (&'a str, Box<dyn Fn(&[u8]) -> u32 + 'a>);

fn candidates<'a>(ieee: &'a [u32; 256], castagnoli: &'a [u32; 256]) -> Vec<Candidate<'a>> {
    vec![
        ("CRC-32", Box::new(|s| unsafe { relay_crc32(s.as_ptr(), s.len()) })),
        ("zlib", Box::new(|s| unsafe { zlib_crc32(0, s.as_ptr(), s.len() as u32) as u32 })),
        ("plain loop", Box::new(|s| plain(ieee, s))),
        #[cfg(crc32fast)]
        ("crc32fast", Box::new(|s| crc32fast::hash(s))),
        ("CRC-32C", Box::new(|s| unsafe { relay_crc32c(s.as_ptr(), s.len()) })),
        ("plain loop, CRC-32C", Box::new(|s| plain(castagnoli, s))),
    ]
}

/// The shortest time of a call of each candidate, in nanoseconds.
fn times(candidates: &[Candidate], bytes: &[u8]) -> Vec<f64> {
    let calls = 1 + 100_000 / (bytes.len() + 20);
    let rounds = if bytes.len() > 1_000_000 { 40 } else { 400 };
    let mut best = vec![f64::INFINITY; candidates.len()];
    for _ in 0..rounds {
        for ((_, sum), best) in candidates.iter().zip(&mut best) {
            let start = Instant::now();
            for _ in 0..calls {
                black_box(sum(black_box(bytes)));
            }
            *best = best.min(start.elapsed().as_nanos() as f64 / calls as f64);
        }
    }
    best
}

fn main() {
    let (ieee, castagnoli) = (table(0xEDB8_8320), table(0x82F6_3B78));
    let candidates = candidates(&ieee, &castagnoli);
    let mut state = 1u32;
    let bytes: Vec<u8> = (0..LENGTHS[LENGTHS.len() - 1])
        .map(|_| {
            state = state.wrapping_mul(1_664_525).wrapping_add(1_013_904_223);
            (state >> 24) as u8
        })
        .collect();
    println!("Nanoseconds a call, and how many times ours is as fast (for CRC-32C: as the plain loop for CRC-32C).\n");
    print!("| bytes |");
    for (name, _) in &candidates {
        print!(" {name} |");
    }
    println!("\n|---{}|", "|---".repeat(candidates.len()));
    for length in LENGTHS {
        let bytes = &bytes[..length];
        let best = times(&candidates, bytes);
        let sums: Vec<u32> = candidates.iter().map(|(_, sum)| sum(bytes)).collect();
        let second = candidates.len() - 2;
        assert!(sums[1..second].iter().all(|&sum| sum == sums[0]) && sums[second] == sums[second + 1]);
        print!("| {length} |");
        for (index, &time) in best.iter().enumerate() {
            match index {
                _ if index == 0 || index == second => print!(" {time:.0} |"),
                _ if index < second => print!(" {time:.0} ({:.2}) |", time / best[0]),
                _ => print!(" {time:.0} ({:.2}) |", time / best[second]),
            }
        }
        println!();
    }
}
