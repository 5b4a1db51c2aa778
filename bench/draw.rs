//! Pseudo-random numbers. All sides of the measurement use the same sequence.

pub struct Draw(pub u64);

impl Draw {
    /// Returns the next number, of 31 bits.
    pub fn next(&mut self) -> u64 {
        self.0 = self.0.wrapping_mul(6364136223846793005).wrapping_add(1442695040888963407);
        self.0 >> 33
    }

    /// Returns a number below a limit, or 0 if the limit is 0.
    pub fn below(&mut self, limit: u64) -> u64 {
        self.next().checked_rem(limit).unwrap_or(0)
    }

    /// Returns a key from 0 to below a limit, or 0 if the limit is 0.
    pub fn key(&mut self, limit: u64) -> i64 {
        self.below(limit) as i64
    }
}
