//! A small seeded generator of numbers (xorshift), so that every run of the
//! comparison with the same seed meets the same cases.

/// A copy makes the same numbers again, and leaves this one where it is.
#[derive(Clone)]
pub struct Random {
    state: u64,
}

impl Random {
    pub fn new(seed: u64) -> Random {
        // Xorshift never leaves the state 0, so that one is replaced.
        let state = if seed == 0 {
            0x9E37_79B9_7F4A_7C15
        } else {
            seed
        };
        let mut random = Random { state };
        // Small seeds differ in few bits; some steps spread them.
        for _ in 0..20 {
            random.number();
        }
        random
    }

    /// Any number.
    pub fn number(&mut self) -> u64 {
        self.state ^= self.state << 13;
        self.state ^= self.state >> 7;
        self.state ^= self.state << 17;
        self.state
    }

    pub fn byte(&mut self) -> u8 {
        (self.number() >> 40) as u8
    }

    /// A number from 0 to `limit` − 1; 0 if the limit is 0.
    pub fn below(&mut self, limit: usize) -> usize {
        ((self.number() >> 20) as usize)
            .checked_rem(limit)
            .unwrap_or(0)
    }

    /// True once in `times`.
    pub fn once_in(&mut self, times: usize) -> bool {
        self.below(times) == 0
    }

    pub fn pick<T: Copy>(&mut self, choices: &[T]) -> T {
        choices[self.below(choices.len())]
    }

    pub fn bytes(&mut self, count: usize) -> Vec<u8> {
        (0..count).map(|_| self.byte()).collect()
    }
}
