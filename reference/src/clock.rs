//! Clocks for random calls with times: they stand, run on, jump and go back.

use crate::generator::Generator;

/// The largest time that is not refused.
pub const LARGEST_TIME: u64 = (1 << 62) - 1;

/// How a clock moves from one call to the next.
#[derive(Clone, Copy, Debug, PartialEq, Eq)]
pub enum Pace {
    Stands,
    RunsOn,
    /// Far ahead, now and then.
    Jumps,
    /// By as much as it runs on, or by more.
    GoesBack,
    /// Any of these, from call to call.
    Any,
}

/// Without `Any`.
pub const PACES: [Pace; 4] = [Pace::Stands, Pace::RunsOn, Pace::Jumps, Pace::GoesBack];

pub struct Clock {
    now: u64,
    pace: Pace,
}

impl Clock {
    pub fn new(now: u64, pace: Pace) -> Clock {
        Clock { now, pace }
    }

    /// The time of the next call.
    pub fn tick(&mut self, generator: &mut Generator) -> u64 {
        let pace = match self.pace {
            Pace::Any => generator.pick(&PACES),
            pace => pace,
        };
        let now = match pace {
            Pace::Stands | Pace::Any => self.now,
            Pace::RunsOn => self.now + generator.below(9),
            Pace::Jumps => self.now + generator.pick(&[0, 0, 1, 3, 3, 5, 30, 200]),
            Pace::GoesBack => match generator.below(4) {
                0 => self.now.saturating_sub(generator.below(40)),
                1 => self.now.saturating_sub(generator.below(9)),
                _ => self.now + generator.below(39),
            },
        };
        self.now = now.min(LARGEST_TIME);
        self.now
    }
}

/// Mostly short beside the clocks' steps; 0 is none.
pub fn timeout(generator: &mut Generator) -> u32 {
    generator.pick(&[0, 0, 1, 2, 5, 9, 20, 20, 45, 45, 90, 300, u32::MAX])
}

/// A time that is refused.
pub fn beyond(generator: &mut Generator) -> u64 {
    let end = LARGEST_TIME + 1;
    generator.pick(&[end, end + 7, 1 << 63, 3 << 62, u64::MAX - 5, u64::MAX])
}

#[cfg(test)]
mod tests {
    use super::*;
    use std::cmp::Ordering;

    /// How often a clock went back, stood and ran on, and where it is.
    fn steps(now: u64, pace: Pace) -> ([usize; 3], u64) {
        let (mut generator, mut clock) = (Generator::new(3), Clock::new(now, pace));
        let (mut steps, mut last) = ([0; 3], now);
        for _ in 0..1000 {
            let time = clock.tick(&mut generator);
            steps[match time.cmp(&last) {
                Ordering::Less => 0,
                Ordering::Equal => 1,
                Ordering::Greater => 2,
            }] += 1;
            last = time;
        }
        (steps, last)
    }

    #[test]
    fn each_pace_is_what_it_is_called() {
        assert_eq!(steps(5, Pace::Stands), ([0, 1000, 0], 5));
        let ([back, _, on], _) = steps(5, Pace::RunsOn);
        assert!(back == 0 && on > 800);
        let ([back, stood, on], end) = steps(5, Pace::Jumps);
        assert!(back == 0 && stood > 200 && on > 600 && end > 20_000);
        for pace in [Pace::GoesBack, Pace::Any] {
            let ([back, _, on], end) = steps(5, pace);
            assert!(back > 80 && on > 400 && end > 1000, "{pace:?}");
        }
    }

    #[test]
    fn no_clock_leaves_the_times_that_are_taken() {
        for pace in [Pace::RunsOn, Pace::Jumps, Pace::GoesBack, Pace::Any] {
            assert!(steps(LARGEST_TIME - 100, pace).1 <= LARGEST_TIME);
        }
        let mut generator = Generator::new(4);
        for _ in 0..100 {
            assert!(beyond(&mut generator) > LARGEST_TIME);
        }
    }
}
