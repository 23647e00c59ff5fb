//! What is to be done again and again.

use std::time::{Duration, Instant};

pub struct Beat {
    pub interval: Duration,
    pub next: Instant,
}

impl Beat {
    pub fn new(interval: Duration, now: Instant) -> Beat {
        Beat {
            interval,
            next: now + interval,
        }
    }

    /// For requests with a timeout, in milliseconds: a tenth of it, and at most a
    /// second. So much longer a request may take.
    pub fn of_timeout(timeout: u32, now: Instant) -> Beat {
        let tenth = Duration::from_millis(timeout.into()) / 10;
        Beat::new(
            tenth.clamp(Duration::from_millis(1), Duration::from_secs(1)),
            now,
        )
    }

    /// Whether its time has come; then the next one is an interval away.
    pub fn is_due(&mut self, now: Instant) -> bool {
        let is_due = self.next <= now;
        if is_due {
            self.next = now + self.interval;
        }
        is_due
    }
}

#[cfg(test)]
mod tests {
    use super::*;

    #[test]
    fn it_is_due_once_an_interval() {
        let start = Instant::now();
        let at = |ms| start + Duration::from_millis(ms);
        let mut beat = Beat::new(Duration::from_millis(10), start);
        let due = [0, 9, 10, 11, 19, 35, 44, 45].map(|ms| beat.is_due(at(ms)));
        let [y, n] = [true, false];
        assert_eq!(due, [n, n, y, n, n, y, n, y]);
        assert_eq!(beat.next, at(55));
    }

    #[test]
    fn requests_are_looked_at_in_time() {
        let of = |timeout| {
            Beat::of_timeout(timeout, Instant::now())
                .interval
                .as_millis()
        };
        assert_eq!([1, 10, 19, 500].map(of), [1, 1, 1, 50]);
        assert_eq!(
            [9999, 10_000, 30_000, u32::MAX].map(of),
            [999, 1000, 1000, 1000]
        );
    }
}
