//! A small random generator (splitmix64) and the seed of the tests.

use std::env;

/// The seed when BUDKARV_SEED names no other.
pub const SEED: u64 = 20_240_612;

/// The seed of this run: BUDKARV_SEED, or `SEED`.
pub fn seed() -> u64 {
    match env::var("BUDKARV_SEED") {
        Ok(text) => text.parse().expect("BUDKARV_SEED is a number below 2^64"),
        Err(_) => SEED,
    }
}

pub struct Random {
    state: u64,
}

impl Random {
    /// The generator of one test: the seed, and a number that tells the tests apart.
    pub fn new(seed: u64, stream: u64) -> Self {
        Random { state: seed ^ stream.wrapping_mul(0xD134_2543_DE82_EF95) }
    }

    pub fn word(&mut self) -> u64 {
        self.state = self.state.wrapping_add(0x9E37_79B9_7F4A_7C15);
        let mut z = self.state;
        z = (z ^ z >> 30).wrapping_mul(0xBF58_476D_1CE4_E5B9);
        z = (z ^ z >> 27).wrapping_mul(0x94D0_49BB_1331_11EB);
        z ^ z >> 31
    }

    /// A number below `end`, which is not 0.
    pub fn below(&mut self, end: usize) -> usize {
        (self.word() % end as u64) as usize
    }

    /// A number from `least` to `most`, both included.
    pub fn between(&mut self, least: usize, most: usize) -> usize {
        least + self.below(most - least + 1)
    }

    pub fn chance(&mut self, percent: usize) -> bool {
        self.below(100) < percent
    }

    pub fn pick<T: Copy>(&mut self, from: &[T]) -> T {
        from[self.below(from.len())]
    }
}
