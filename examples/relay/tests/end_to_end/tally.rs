//! Counts by name.

use std::collections::BTreeMap;
use std::fmt;
use std::thread::JoinHandle;

#[derive(Default)]
pub struct Tally(BTreeMap<String, u64>);

impl Tally {
    pub fn add(&mut self, name: &str, count: u64) {
        *self.0.entry(name.to_string()).or_default() += count;
    }

    pub fn get(&self, name: &str) -> u64 {
        self.0.get(name).copied().unwrap_or(0)
    }

    /// Takes in a player's counts, or its fault.
    pub fn join(&mut self, player: JoinHandle<Result<Tally, String>>, faults: &mut Vec<String>) {
        match player.join() {
            Ok(Ok(tally)) => {
                for (name, count) in &tally.0 {
                    self.add(name, *count);
                }
            }
            Ok(Err(fault)) => faults.push(fault),
            Err(_) => faults.push("a player panicked".to_string()),
        }
    }

    /// Words and numbers in turn, as the relay prints them.
    pub fn read(line: &str) -> Tally {
        let words: Vec<&str> = line.split_whitespace().skip(1).collect();
        let mut tally = Tally::default();
        for pair in words.chunks_exact(2) {
            tally.add(pair[0], pair[1].parse().expect("a count"));
        }
        tally
    }
}

impl fmt::Display for Tally {
    fn fmt(&self, f: &mut fmt::Formatter) -> fmt::Result {
        for (name, count) in &self.0 {
            writeln!(f, "  {name:24} {count:8}")?;
        }
        Ok(())
    }
}
