//! What is handed in: any bits, and what lies about the ends of 01's ranges.

use crate::random::Random;
use std::f64::consts::TAU;

/// 2^36: the largest delay, position and count.
pub const END: f64 = 68_719_476_736.0;

/// The ends of 01's ranges, and of what a processor's numbers can hold.
const EDGES: [f64; 36] = [
    0.0, 5e-324, 2.2250738585072009e-308, f64::MIN_POSITIVE, 1e-300, 1e-17, 0.0009765625, 0.001, 0.02, 0.5, 0.65, 1.0, 1.35, 2.0, 4.0, 16.0, 20.0, 51.0, TAU,
    128.0, 256.0, 1000.0, 1200.0, 4096.0, 8000.0, 48000.0, 768000.0, 16777216.0, 4294967296.0, END, 9007199254740992.0, 4611686018427387904.0,
    9223372036854775808.0, 18446744073709551616.0, 1e300, f64::MAX,
];
const EDGES32: [f32; 10] = [0.0, 1e-45, 1.1754942e-38, f32::MIN_POSITIVE, 0.5, 1.0, 16777216.0, 3.4e37, 3.4028233e38, f32::MAX];
pub const NANS: [u64; 7] = [
    0x7FF8_0000_0000_0000, 0xFFF8_0000_0000_0000, 0x7FF0_0000_0000_0001, 0xFFF0_0000_0000_0001, 0x7FFF_FFFF_FFFF_FFFF, 0xFFFF_FFFF_FFFF_FFFF,
    0x7FF4_DEAD_0000_BEEF,
];
pub const NANS32: [u32; 6] = [0x7FC0_0000, 0xFFC0_0000, 0x7F80_0001, 0xFF80_0001, 0x7FFF_FFFF, 0xFFFF_FFFF];

impl Random {
    /// One in so many.
    pub fn one_in(&mut self, many: u64) -> bool {
        self.word() % many == 0
    }

    pub fn pick<T: Copy>(&mut self, list: &[T]) -> T {
        list[(self.word() % list.len() as u64) as usize]
    }

    /// Any f64: any bits, NaNs, infinities, subnormal numbers, about an edge.
    pub fn float(&mut self) -> f64 {
        let word = self.word();
        match self.word() % 8 {
            0..=2 => f64::from_bits(word),
            3 => f64::from_bits(self.pick(&NANS)),
            4 if word & 2 == 0 => f64::from_bits(word & 1 << 63 | 0x7FF0_0000_0000_0000),
            4 => f64::from_bits(word & 0x800F_FFFF_FFFF_FFFF),
            _ => {
                let beside = self.pick(&EDGES).to_bits().wrapping_add_signed(word as i64 % 3);
                f64::from_bits(beside | word & 1 << 63)
            }
        }
    }

    pub fn float32(&mut self) -> f32 {
        let word = self.word();
        match self.word() % 8 {
            0..=2 => f32::from_bits(word as u32),
            3 => f32::from_bits(self.pick(&NANS32)),
            4 if word & 2 == 0 => f32::from_bits((word as u32) & 1 << 31 | 0x7F80_0000),
            4 => f32::from_bits(word as u32 & 0x807F_FFFF),
            _ => {
                let beside = self.pick(&EDGES32).to_bits().wrapping_add_signed((word as i64 % 3) as i32);
                f32::from_bits(beside | word as u32 & 1 << 31)
            }
        }
    }

    /// About -1 to 1; one in 97 is anything.
    pub fn seldom_odd(&mut self) -> f64 {
        if self.one_in(97) {
            self.float()
        } else {
            2.0 * self.unit() - 1.0
        }
    }

    /// Mostly from `low` to `high`; at the ends, beside them, tiny, and anything.
    pub fn ranged(&mut self, low: f64, high: f64) -> f64 {
        match self.word() % 64 {
            0 => self.float(),
            1 => self.pick(&[low.next_down(), high.next_up(), low - 1.0, high + 1.0]),
            2..=5 => self.pick(&[low, high, low.next_up(), high.next_down()]),
            6 => self.pick(&[0.0, -0.0, 5e-324, -5e-324, 1e-300]),
            _ => low + self.unit() * (high - low),
        }
    }

    /// Any whole number: any bits, small ones, about powers of two.
    pub fn whole(&mut self) -> u64 {
        let word = self.word();
        match self.word() % 4 {
            0 => word,
            1 => word % 10,
            2 => word >> (word % 64),
            _ => (1u64 << (word % 64)).wrapping_add_signed((word >> 8) as i64 % 3),
        }
    }

    /// Mostly from `low` to `high`; else beside that, or anything.
    pub fn count(&mut self, low: u64, high: u64) -> u64 {
        match self.word() % 64 {
            0 => self.whole(),
            1 => self.pick(&[low.wrapping_sub(1), high.wrapping_add(1)]),
            2 => self.pick(&[low, high]),
            _ => low + self.word() % (high - low + 1),
        }
    }
}
