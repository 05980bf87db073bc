//! Seeded random numbers. Each case has a generator of its own, made from the seed and the case's index, so that a case
//! can be run again alone.

/// A SplitMix64 generator.
pub struct Random {
    state: u64,
}

const STEP: u64 = 0x9E37_79B9_7F4A_7C15;

impl Random {
    pub fn new(seed: u64) -> Random {
        Random { state: seed }
    }

    /// The generator of one case.
    pub fn of_case(seed: u64, index: u64) -> Random {
        let mut outer = Random::new(seed ^ index.wrapping_mul(STEP));
        Random::new(outer.word() ^ index)
    }

    pub fn word(&mut self) -> u64 {
        self.state = self.state.wrapping_add(STEP);
        let mut word = self.state;
        word = (word ^ (word >> 30)).wrapping_mul(0xBF58_476D_1CE4_E5B9);
        word = (word ^ (word >> 27)).wrapping_mul(0x94D0_49BB_1331_11EB);
        word ^ (word >> 31)
    }

    /// A number from 0 to `limit` - 1.
    pub fn below(&mut self, limit: usize) -> usize {
        ((u128::from(self.word()) * limit as u128) >> 64) as usize
    }

    /// A number from `low` to `high`, both among them.
    pub fn between(&mut self, low: i64, high: i64) -> i64 {
        low + self.below((high - low + 1) as usize) as i64
    }

    /// A number of at most this size, either sign, and not 0 unless the size is.
    pub fn signed(&mut self, size: i64) -> i64 {
        let value = self.between(size.min(1), size);
        if self.one_in(2) {
            value
        } else {
            -value
        }
    }

    pub fn one_in(&mut self, chances: usize) -> bool {
        self.below(chances) == 0
    }

    pub fn pick<T: Copy>(&mut self, among: &[T]) -> T {
        among[self.below(among.len())]
    }
}
