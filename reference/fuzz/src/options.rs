//! The words of the command line.

use std::time::Duration;

pub struct Options {
    pub seed: u64,
    /// The number of the first case.
    pub first: u64,
    cases: Option<u64>,
    time: Option<Duration>,
}

impl Options {
    /// Without any word it runs a hundred thousand cases.
    pub fn read(mut words: impl Iterator<Item = String>) -> Option<Options> {
        let mut options = Options {
            seed: 1,
            first: 0,
            cases: None,
            time: None,
        };
        while let Some(word) = words.next() {
            let number: u64 = words.next()?.parse().ok()?;
            match word.as_str() {
                "--seconds" => options.time = Some(Duration::from_secs(number)),
                "--cases" => options.cases = Some(number),
                "--seed" => options.seed = number,
                "--case" => (options.first, options.cases) = (number, Some(1)),
                _ => return None,
            }
        }
        if options.cases.is_none() && options.time.is_none() {
            options.cases = Some(100_000);
        }
        Some(options)
    }

    pub fn are_enough(&self, cases: u64, time: Duration) -> bool {
        self.cases.is_some_and(|all| cases >= all) || self.time.is_some_and(|all| time >= all)
    }
}
