//! A fixed pseudo-random generator (xorshift64*), so that the stored files and
//! the benchmark's events are the same bytes on every machine and every run.

pub struct Generator(u64);

impl Generator {
    /// Different seeds give unrelated streams; the multiplication keeps small
    /// seeds apart, and the lowest bit keeps the state from being 0.
    pub fn new(seed: u64) -> Self {
        Generator(seed.wrapping_mul(0x9E37_79B9_7F4A_7C15) | 1)
    }

    pub fn draw(&mut self) -> u64 {
        self.0 ^= self.0 >> 12;
        self.0 ^= self.0 << 25;
        self.0 ^= self.0 >> 27;
        self.0.wrapping_mul(0x2545_F491_4F6C_DD1D)
    }

    /// A number from 0 to `end - 1`. Taken from the upper bits, the better ones.
    pub fn below(&mut self, end: u64) -> u64 {
        (self.draw() >> 16) % end
    }

    pub fn byte(&mut self) -> u8 {
        (self.draw() >> 56) as u8
    }

    pub fn bytes(&mut self, n: usize) -> Vec<u8> {
        (0..n).map(|_| self.byte()).collect()
    }

    pub fn pick<T: Copy>(&mut self, choices: &[T]) -> T {
        choices[self.below(choices.len() as u64) as usize]
    }
}

#[cfg(test)]
mod tests {
    use super::*;

    #[test]
    fn same_seed_same_stream() {
        let bytes = Generator::new(5).bytes(1000);
        assert_eq!(bytes, Generator::new(5).bytes(1000));
        assert_ne!(bytes, Generator::new(6).bytes(1000));
    }

    #[test]
    fn below_stays_below_and_reaches_all() {
        let mut generator = Generator::new(0);
        let mut seen = [false; 7];
        for _ in 0..1000 {
            seen[generator.below(7) as usize] = true;
        }
        assert_eq!(seen, [true; 7]);
    }
}
