//! Seeded numbers.

/// A xorshift generator with 64 bits of state.
pub struct Random(u64);

/// What a seed is mixed with, so that small seeds differ soon.
const MIX: u64 = 0x9E37_79B9_7F4A_7C15;

impl Random {
    /// Starts from a seed.
    pub fn new(seed: u64) -> Random {
        let mixed = (seed + 1).wrapping_mul(MIX);
        Random(if mixed == 0 { MIX } else { mixed })
    }

    /// The next 64 bits.
    pub fn bits(&mut self) -> u64 {
        self.0 ^= self.0 << 13;
        self.0 ^= self.0 >> 7;
        self.0 ^= self.0 << 17;
        self.0.wrapping_mul(MIX)
    }

    /// A number below `limit`.
    pub fn below(&mut self, limit: u64) -> u64 {
        (self.bits() >> 32) % limit
    }

    /// A number from `low` to `high`.
    pub fn within(&mut self, low: i32, high: i32) -> i32 {
        low + self.below((high - low + 1) as u64) as i32
    }

    /// Yes, once in `times`.
    pub fn once_in(&mut self, times: u64) -> bool {
        self.below(times) == 0
    }

    /// Yes or no.
    pub fn flag(&mut self) -> bool {
        self.once_in(2)
    }

    /// Any byte.
    pub fn byte(&mut self) -> u8 {
        (self.bits() >> 56) as u8
    }

    /// One of these.
    pub fn one_of<T: Copy>(&mut self, choices: &[T]) -> T {
        choices[self.below(choices.len() as u64) as usize]
    }
}
