//! Words at random, the same in every run: an xorshift generator.

/// The generator's state, never 0.
pub struct Words(u64);

impl Words {
    /// From a seed that is not 0.
    pub fn from_seed(seed: u64) -> Self {
        assert_ne!(seed, 0);
        Words(seed)
    }

    /// Any word.
    pub fn any(&mut self) -> u64 {
        self.0 ^= self.0 << 13;
        self.0 ^= self.0 >> 7;
        self.0 ^= self.0 << 17;
        self.0
    }

    /// A number below the bound.
    pub fn below(&mut self, bound: u32) -> u32 {
        u32::try_from((self.any() >> 16) % u64::from(bound)).unwrap()
    }
}
