//! How often each answer of each call was seen.

use std::collections::BTreeMap;
use std::fmt;

#[derive(Clone, Copy, PartialEq, Eq, PartialOrd, Ord)]
enum Answer {
    Is(&'static str),
    Refused(u8),
}

#[derive(Default)]
pub struct Counts(BTreeMap<(&'static str, Answer), u64>);

/// The refusals that each call has; those of a link are in their order.
const REFUSALS: [(&str, &[u8]); 19] = [
    ("read", &[19, 11, 12, 13, 14, 17, 18]),
    ("field of 0", &[19, 11, 12, 13, 14]),
    ("set-up", &[36, 30]),
    ("set-up with a key", &[36, 30]),
    ("Nonce", &[7]),
    ("derive", &[36, 30, 16]),
    ("encipher", &[37]),
    ("decipher", &[37]),
    (
        "receive",
        &[20, 22, 26, 1, 3, 2, 4, 5, 6, 25, 7, 8, 24, 9, 10, 17, 21],
    ),
    ("send", &[20, 22, 5, 21, 19, 12, 15, 2, 16]),
    ("flush", &[20, 16]),
    ("fresh", &[30]),
    ("ask", &[30, 12, 31, 32, 33]),
    ("ask by", &[30, 12, 31, 32, 33]),
    ("reply", &[30, 12, 34]),
    ("cancel", &[30, 12, 34]),
    ("gone front end", &[30, 16]),
    ("gone publisher", &[30, 16]),
    ("run out", &[30, 16]),
];

impl Counts {
    pub fn add(&mut self, call: &'static str, answer: Result<&'static str, u8>) {
        let answer = match answer {
            Ok(word) => Answer::Is(word),
            Err(number) => Answer::Refused(number),
        };
        *self.0.entry((call, answer)).or_default() += 1;
    }

    /// The refusals of a call that no case has reached.
    fn missing(&self, call: &str, refusals: &[u8]) -> Vec<u8> {
        let is_seen = |number| {
            let mut seen = self.0.keys();
            seen.any(|key| *key == (call, Answer::Refused(number)))
        };
        let all = refusals.iter().copied();
        all.filter(|&number| !is_seen(number)).collect()
    }
}

impl fmt::Display for Counts {
    fn fmt(&self, f: &mut fmt::Formatter) -> fmt::Result {
        let mut last = "";
        for ((call, answer), count) in &self.0 {
            if *call != last {
                write!(f, "{}{call}:", if last.is_empty() { "" } else { "\n" })?;
                last = call;
            }
            match answer {
                Answer::Is(word) => write!(f, " {word} {count},")?,
                Answer::Refused(number) => write!(f, " no-{number} {count},")?,
            }
        }
        for (call, refusals) in REFUSALS {
            let missing = self.missing(call, refusals);
            if !missing.is_empty() {
                write!(f, "\nnot reached by {call}: {missing:?}")?;
            }
        }
        Ok(())
    }
}
