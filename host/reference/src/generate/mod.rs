//! Random patterns, texts, code and numbers from a seed: the same seed gives the same.

mod code;
mod numerals;
mod patterns;
mod texts;

pub use code::{code, damaged_code};
pub use numerals::{damaged_numeral, numeral};
pub use patterns::{damaged_pattern, pattern};
pub use texts::{long_text, text};

/// A xorshift generator (64 bits, the result multiplied).
#[derive(Clone, Debug)]
pub struct Random(u64);

impl Random {
    /// The generator for a seed; any seed will do.
    pub fn new(seed: u64) -> Random {
        // A state of zero would stay zero.
        let mut random = Random(seed.wrapping_mul(0x9E37_79B9_7F4A_7C15) | 1);
        for _ in 0..4 {
            random.next();
        }
        random
    }

    /// The next 64 bits.
    #[allow(clippy::should_implement_trait)]
    pub fn next(&mut self) -> u64 {
        self.0 ^= self.0 >> 12;
        self.0 ^= self.0 << 25;
        self.0 ^= self.0 >> 27;
        self.0.wrapping_mul(0x2545_F491_4F6C_DD1D)
    }

    /// A number below the limit (0 if the limit is 0).
    pub fn below(&mut self, limit: usize) -> usize {
        let bits = (self.next() >> 33) as usize;
        bits.checked_rem(limit).unwrap_or(0)
    }

    /// A number from `low` to `high`, both included.
    pub fn between(&mut self, low: usize, high: usize) -> usize {
        low + self.below(high.saturating_sub(low) + 1)
    }

    /// True so many times in a hundred.
    pub fn percent(&mut self, chance: usize) -> bool {
        self.below(100) < chance
    }

    /// One of these, or nothing if there are none.
    pub fn pick<T: Copy>(&mut self, from: &[T]) -> Option<T> {
        from.get(self.below(from.len())).copied()
    }

    /// One of these bytes.
    pub fn byte_of(&mut self, from: &[u8]) -> u8 {
        self.pick(from).unwrap_or(b'a')
    }

    /// Any byte.
    pub fn byte(&mut self) -> u8 {
        self.below(256) as u8
    }
}
