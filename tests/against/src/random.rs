//! Pseudo-random numbers, the same for the same seed.

/// A splitmix64 generator.
pub struct Random(u64);

impl Random {
    /// The generator of one case of a group: the same however many cases run, in any order.
    pub fn of_case(seed: u64, group: &str, case: u64) -> Random {
        let parts = group.bytes().map(u64::from).chain([case]);
        Random(parts.fold(seed, |mixed, part| Random(mixed ^ part).word()))
    }

    pub fn word(&mut self) -> u64 {
        self.0 = self.0.wrapping_add(0x9E37_79B9_7F4A_7C15);
        let a = (self.0 ^ (self.0 >> 30)).wrapping_mul(0xBF58_476D_1CE4_E5B9);
        let b = (a ^ (a >> 27)).wrapping_mul(0x94D0_49BB_1331_11EB);
        b ^ (b >> 31)
    }

    /// 0 to n - 1.
    pub fn below(&mut self, n: usize) -> usize {
        (self.word() % n as u64) as usize
    }

    /// Low to high, both included.
    pub fn between(&mut self, low: i64, high: i64) -> i64 {
        low + (self.word() % (high - low + 1) as u64) as i64
    }

    pub fn byte(&mut self) -> u8 {
        self.word() as u8
    }

    /// True once in n times on average.
    pub fn once_in(&mut self, n: usize) -> bool {
        self.below(n) == 0
    }

    pub fn pick<T: Copy>(&mut self, from: &[T]) -> T {
        from[self.below(from.len())]
    }
}
