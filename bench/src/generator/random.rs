//! A deterministic source of numbers of every magnitude.

/// splitmix64: small, and the same on every machine for the same seed.
pub struct Random {
    state: u64,
}

impl Random {
    pub fn new(seed: u64) -> Random {
        Random { state: seed }
    }

    pub fn bits(&mut self) -> u64 {
        self.state = self.state.wrapping_add(0x9e37_79b9_7f4a_7c15);
        let mut mixed = self.state;
        mixed = (mixed ^ (mixed >> 30)).wrapping_mul(0xbf58_476d_1ce4_e5b9);
        mixed = (mixed ^ (mixed >> 27)).wrapping_mul(0x94d0_49bb_1331_11eb);
        mixed ^ (mixed >> 31)
    }

    /// From 0 to `count - 1`. The slight favour for low numbers does no harm.
    pub fn below(&mut self, count: u64) -> u64 {
        self.bits() % count
    }

    /// True once in `count` times.
    pub fn once_in(&mut self, count: u64) -> bool {
        self.below(count) == 0
    }

    pub fn pick<T: Copy>(&mut self, choices: &[T]) -> T {
        choices[self.below(choices.len() as u64) as usize]
    }

    /// From `low` to `high`, both included and both at least 0.
    pub fn between(&mut self, low: i64, high: i64) -> i64 {
        low + self.below((high - low) as u64 + 1) as i64
    }

    /// From 0 to `limit`, every number of binary digits about as often.
    pub fn magnitude(&mut self, limit: i64) -> i64 {
        let digits = u64::from(64 - limit.leading_zeros());
        loop {
            let wanted = self.below(digits + 1);
            let value = self.with_digits(wanted);
            if value <= limit {
                return value;
            }
        }
    }

    /// A number of exactly so many binary digits, 63 at most.
    fn with_digits(&mut self, digits: u64) -> i64 {
        if digits == 0 {
            return 0;
        }
        let top = 1 << (digits - 1);
        (top | (self.bits() & (top - 1))) as i64
    }

    /// `value` or its negative.
    pub fn signed(&mut self, value: i64) -> i64 {
        if self.once_in(2) {
            -value
        } else {
            value
        }
    }
}
