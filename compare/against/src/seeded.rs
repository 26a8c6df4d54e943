//! Seeded numbers: the same seed and index always give the same numbers.

pub struct Seeded {
    state: u64,
}

const STRIDE: u64 = 0x9e37_79b9_7f4a_7c15;

/// The mixing step of splitmix64.
fn mixed(mut z: u64) -> u64 {
    z = (z ^ (z >> 30)).wrapping_mul(0xbf58_476d_1ce4_e5b9);
    z = (z ^ (z >> 27)).wrapping_mul(0x94d0_49bb_1331_11eb);
    z ^ (z >> 31)
}

impl Seeded {
    /// Each piece of work has its own numbers, by its sort and its index.
    pub fn new(seed: u64, sort: u64, index: u64) -> Seeded {
        let state = mixed(mixed(mixed(seed) ^ sort.wrapping_mul(STRIDE)) ^ index);
        Seeded { state }
    }

    pub fn next(&mut self) -> u64 {
        self.state = self.state.wrapping_add(STRIDE);
        mixed(self.state)
    }

    /// Any 32-bit number.
    pub fn number(&mut self) -> u32 {
        (self.next() >> 32) as u32
    }

    /// From 0 to below `bound`.
    pub fn below(&mut self, bound: usize) -> usize {
        (self.next() % bound as u64) as usize
    }

    /// From `low` to `high`, both included.
    pub fn between(&mut self, low: u32, high: u32) -> u32 {
        low + (self.next() % (u64::from(high - low) + 1)) as u32
    }

    /// The same of numbers with a sign.
    pub fn signed(&mut self, low: i32, high: i32) -> i32 {
        low.wrapping_add_unsigned(self.between(0, high.abs_diff(low)))
    }

    pub fn one_in(&mut self, share: usize) -> bool {
        self.below(share) == 0
    }

    pub fn pick<T: Copy>(&mut self, from: &[T]) -> T {
        from[self.below(from.len())]
    }
}
