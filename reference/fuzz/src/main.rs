//! Holds the proved library against the second program: both get the same
//! random calls, and every answer, state and lent byte is compared.
//!
//! `fuzz --seconds N`, `--cases N` or both say how long; `--seed S` gives other
//! cases, and `--case C` runs that one alone. At the first difference it prints
//! the seed, the case and both answers, and exits with 1. At the end it prints
//! how often each answer was seen.

mod agreements;
mod both;
mod checksums;
mod choices;
mod ciphered;
mod ciphers;
mod clocks;
mod compare;
mod conversations;
mod counts;
mod digests;
mod draw;
mod flushes;
mod keys;
mod messages;
mod netpids;
mod nonces;
mod options;
mod packets;
mod padding;
mod pairs;
mod second_driver;
mod sends;
mod sessions;
mod set_ups;
mod states;
mod tables;
mod types;

use compare::Compared;
use counts::Counts;
use options::Options;
use reference::generator::Generator;
use std::panic::{catch_unwind, AssertUnwindSafe};
use std::process::ExitCode;
use std::time::{Duration, Instant};

const HELP: &str = "fuzz [--seconds N] [--cases N] [--seed S] [--case C]";

fn main() -> ExitCode {
    match Options::read(std::env::args().skip(1)) {
        Some(options) => run(&options),
        None => {
            eprintln!("{HELP}");
            ExitCode::from(2)
        }
    }
}

fn run(options: &Options) -> ExitCode {
    let mut counts = Counts::default();
    let start = Instant::now();
    let mut said = Duration::ZERO;
    let mut done = 0;
    for case in options.first.. {
        let elapsed = start.elapsed();
        if options.are_enough(done, elapsed) {
            break;
        }
        if elapsed - said >= Duration::from_secs(60) {
            eprintln!("{} s, {done} cases", elapsed.as_secs());
            said = elapsed;
        }
        let answer = catch_unwind(AssertUnwindSafe(|| one(options.seed, case, &mut counts)));
        let difference = match answer {
            Ok(Ok(())) => None,
            Ok(Err(difference)) => Some(difference.to_string()),
            Err(_) => Some("it panicked".to_string()),
        };
        if let Some(difference) = difference {
            println!("seed {}, case {case}: {difference}", options.seed);
            return ExitCode::FAILURE;
        }
        done += 1;
    }
    println!("{counts}");
    println!(
        "seed {}, {done} cases in {} s, no difference",
        options.seed,
        start.elapsed().as_secs()
    );
    ExitCode::SUCCESS
}

/// A case is what a generator of its own draws.
fn one(seed: u64, case: u64, counts: &mut Counts) -> Compared {
    let mut generator = Generator::new(seed.wrapping_mul(0x9E37_79B9_7F4A_7C15).wrapping_add(case));
    let g = &mut generator;
    match g.below(100) {
        0..2 => checksums::case(g, counts),
        2 => clocks::case(g, counts),
        3 => netpids::case(g, counts),
        4..6 => set_ups::case(g, counts),
        6 => nonces::case(g, counts),
        7..9 => digests::case(g, counts),
        9..12 => keys::case(g, counts),
        12..17 => ciphers::case(g, counts),
        17 => ciphered::case(g, counts),
        18..20 => sessions::case(g, counts),
        20..22 => choices::case(g, counts),
        22..33 => messages::case(g, counts),
        33..36 => flushes::case(g, counts),
        36..71 => conversations::case(g, counts),
        71..81 => sends::case(g, counts),
        81..86 => types::case(g, counts),
        _ => tables::case(g, counts),
    }
}
