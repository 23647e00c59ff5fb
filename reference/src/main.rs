//! The commands of the second program:
//!
//! - `write [ROOT]` writes the stored files below ROOT, by default the current
//!   folder;
//! - `check [ROOT]` compares what stands there with what it would write;
//! - `walk` is the relay walk of document 01, from standard input to output;
//! - `events COUNT` writes so many events for a walk to standard output.

use reference::table::Table;
use reference::{stored, traffic, walk};
use std::io::{self, BufReader, BufWriter, Write};
use std::path::Path;
use std::process::ExitCode;

const USAGE: &str = "usage: reference write [ROOT] | check [ROOT] | walk | events COUNT";
const BUFFER: usize = 1 << 18;

fn main() -> ExitCode {
    let arguments: Vec<String> = std::env::args().skip(1).collect();
    let arguments: Vec<&str> = arguments.iter().map(String::as_str).collect();
    let outcome = match arguments[..] {
        ["write"] => write("."),
        ["write", root] => write(root),
        ["check"] => check("."),
        ["check", root] => check(root),
        ["walk"] => relay_walk().map_err(said),
        ["events", count] => events(count),
        _ => Err(vec![USAGE.to_string()]),
    };
    match outcome {
        Ok(()) => ExitCode::SUCCESS,
        Err(complaints) => {
            for complaint in complaints {
                eprintln!("reference: {complaint}");
            }
            ExitCode::FAILURE
        }
    }
}

/// What went wrong, a line each.
type Outcome = Result<(), Vec<String>>;

fn said(error: io::Error) -> Vec<String> {
    vec![error.to_string()]
}

fn write(root: &str) -> Outcome {
    let count = stored::write(Path::new(root)).map_err(said)?;
    println!("reference: {count} stored files written");
    Ok(())
}

fn check(root: &str) -> Outcome {
    let count = stored::check(Path::new(root))?;
    println!("reference: {count} stored files agree");
    Ok(())
}

fn relay_walk() -> io::Result<()> {
    let table = Table::fresh(1).expect("1 is a first number");
    let mut input = BufReader::with_capacity(BUFFER, io::stdin().lock());
    let mut output = BufWriter::with_capacity(BUFFER, io::stdout().lock());
    walk::walk(table, &mut input, &mut output)?;
    output.flush()
}

fn events(count: &str) -> Outcome {
    let count = count.parse().map_err(|_| vec![USAGE.to_string()])?;
    let mut output = io::stdout().lock();
    traffic::stream(count, |block| output.write_all(block)).map_err(said)?;
    output.flush().map_err(said)
}
