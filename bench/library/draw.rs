//! Pseudo-random numbers. Both sides of the measurement use the same sequence.

/// The state of the generator.
#[derive(Drop)]
pub struct Draw {
    state: u64,
}

impl Draw {
    /// Returns a generator whose sequence depends on `seed` only.
    pub fn new(seed: u64) -> Self {
        Draw { state: seed }
    }

    /// Returns a number below a limit, or 0 if the limit is 0.
    pub fn below(&mut self, limit: u64) -> u64 {
        self.state = self
            .state
            .wrapping_mul(6364136223846793005)
            .wrapping_add(1442695040888963407);
        if limit == 0 {
            return 0;
        }
        (self.state >> 33) % limit
    }

    /// Returns a key from 0 to below a limit, or 0 if the limit is 0.
    pub fn key(&mut self, limit: u64) -> i64 {
        self.below(limit).cast_signed()
    }
}
