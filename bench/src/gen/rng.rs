//! Marsaglia's xorshift with a multiplier (xorshift64*).

pub struct Rng(u64);

impl Rng {
    pub fn new(seed: u64) -> Self {
        // Distinct seeds give distinct states, none of them 0.
        let state = seed.wrapping_mul(0x9E37_79B9_7F4A_7C15);
        let mut rng = Self(if state == 0 { u64::MAX } else { state });
        rng.word();
        rng
    }

    pub fn word(&mut self) -> u64 {
        self.0 ^= self.0 >> 12;
        self.0 ^= self.0 << 25;
        self.0 ^= self.0 >> 27;
        self.0.wrapping_mul(0x2545_F491_4F6C_DD1D)
    }

    /// 0 to `limit` - 1.
    pub fn below(&mut self, limit: usize) -> usize {
        ((self.word() >> 32) as usize * limit) >> 32
    }

    /// `from` to `to`, both included.
    pub fn within(&mut self, from: usize, to: usize) -> usize {
        from + self.below(to + 1 - from)
    }

    pub fn chance(&mut self, percent: usize) -> bool {
        self.below(100) < percent
    }

    pub fn of_thousand(&mut self, chance: usize) -> bool {
        self.below(1000) < chance
    }

    pub fn pick<T: Copy>(&mut self, choice: &[T]) -> T {
        choice[self.below(choice.len())]
    }

    pub fn byte(&mut self) -> u8 {
        (self.word() >> 56) as u8
    }
}
