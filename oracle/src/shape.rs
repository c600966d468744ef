//! What a pattern stands for: how it is shown, and what is simpler than it.

use crate::format::{Format, BINARY32, BINARY64};

#[derive(Clone, Copy)]
pub enum Shape {
    F64,
    F32,
    Word,
    Signed,
}

/// The pattern of a float; the one that is handed out for a NaN, so that two NaNs are equal.
pub fn bits64(x: f64) -> u64 {
    if x.is_nan() {
        0x7FF8_0000_0000_0000
    } else {
        x.to_bits()
    }
}

pub fn bits32(x: f32) -> u64 {
    if x.is_nan() {
        0x7FC0_0000
    } else {
        x.to_bits() as u64
    }
}

pub fn f64_of(n: u64) -> f64 {
    f64::from_bits(n)
}

pub fn f32_of(n: u64) -> f32 {
    f32::from_bits(n as u32)
}

impl Shape {
    pub fn show(self, n: u64) -> String {
        match self {
            Shape::F64 => format!("{n:016X}  {:e}", f64_of(n)),
            Shape::F32 => format!("{n:08X}  {:e}", f32_of(n)),
            Shape::Word => format!("{n:016X}  {n}"),
            Shape::Signed => format!("{n:016X}  {}", n as i64),
        }
    }

    fn format(self) -> Option<&'static Format> {
        match self {
            Shape::F64 => Some(&BINARY64),
            Shape::F32 => Some(&BINARY32),
            Shape::Word | Shape::Signed => None,
        }
    }

    /// How far the exponent lies from that of 1; 0 for a word.
    pub fn from_one(self, n: u64) -> i64 {
        self.format().map_or(0, |format| format.field(n) as i64 - format.bias as i64)
    }

    /// The number with its exponent moved, where it and the one that comes of it are normal.
    pub fn moved(self, n: u64, by: i64) -> Option<u64> {
        let format = self.format()?;
        let normal = 1..format.top() as i64;
        let (from, to) = (format.field(n) as i64, format.field(n) as i64 + by);
        let both = normal.contains(&from) && normal.contains(&to);
        both.then(|| format.pattern(format.negative(n), to as u64, format.digits_of(n)))
    }

    /// How far from simple a pattern is: digits set, and how far the exponent lies from that of 1.
    pub fn cost(self, n: u64) -> u32 {
        match self.format() {
            Some(_) if n != 0 => 1 + n.count_ones() + 2 * (64 - self.from_one(n).unsigned_abs().leading_zeros()),
            _ => n.count_ones(),
        }
    }

    /// Patterns that may be simpler: 0, 1, one digit fewer, an exponent nearer to that of 1.
    pub fn simpler(self, n: u64) -> Vec<u64> {
        let mut list = vec![0];
        list.extend((0..64).rev().map(|place| n & !(1 << place)));
        if let Some(format) = self.format() {
            list.push(format.pattern(false, format.bias, 0));
            let away = self.from_one(n);
            list.extend([-away, -away / 2, -away.signum()].into_iter().filter_map(|by| self.moved(n, by)));
        }
        list
    }
}
