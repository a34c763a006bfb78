/// A run of numbers that is the same each time: a failure can be looked at again.
pub struct Random(u64);

impl Random {
    pub fn new(name: &str) -> Random {
        Random(digest(name.bytes()) | 1)
    }

    /// A run of its own, which leaves this one where it is.
    pub fn aside(&self) -> Random {
        Random(self.0.wrapping_mul(0x9e37_79b9_7f4a_7c15) | 1)
    }

    pub fn next(&mut self) -> u64 {
        self.0 ^= self.0 << 13;
        self.0 ^= self.0 >> 7;
        self.0 ^= self.0 << 17;
        self.0.wrapping_mul(0x2545_f491_4f6c_dd1d)
    }

    pub fn below(&mut self, n: u64) -> u64 {
        (self.next() >> 11) % n
    }

    /// One time in n.
    pub fn one_in(&mut self, n: u64) -> bool {
        self.below(n) == 0
    }

    pub fn pick<T: Copy>(&mut self, from: &[T]) -> T {
        from[self.below(from.len() as u64) as usize]
    }

    /// A whole number near another, at most by `by`.
    pub fn near(&mut self, n: i64, by: u64) -> i64 {
        n.wrapping_add(self.below(2 * by + 1) as i64).wrapping_sub(by as i64)
    }
}

/// A number that other bytes are unlikely to give (FNV-1a).
pub fn digest(bytes: impl Iterator<Item = u8>) -> u64 {
    bytes.fold(0xcbf2_9ce4_8422_2325, |h: u64, b| (h ^ u64::from(b)).wrapping_mul(0x100_0000_01b3))
}
