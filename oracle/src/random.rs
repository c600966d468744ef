//! The generator of every input: xorshift64*, started by a seed of any value.
#![allow(dead_code)] // three programs use it, each in part

pub struct Random(u64);

impl Random {
    pub fn new(seed: u64) -> Self {
        Random((seed ^ 0x9E37_79B9_7F4A_7C15).max(1))
    }

    pub fn word(&mut self) -> u64 {
        self.0 ^= self.0 >> 12;
        self.0 ^= self.0 << 25;
        self.0 ^= self.0 >> 27;
        self.0.wrapping_mul(0x2545_F491_4F6C_DD1D)
    }

    /// A whole number from `low` to `high`, both included.
    pub fn within(&mut self, low: i64, high: i64) -> i64 {
        low + (self.word() % (high - low + 1) as u64) as i64
    }

    /// A number from 0 to below 1, a whole multiple of 2^-53.
    pub fn unit(&mut self) -> f64 {
        (self.word() >> 11) as f64 / (1u64 << 53) as f64
    }
}
