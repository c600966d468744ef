//! Readers, slices and lengths: mostly those that fit together.

use super::draw::END;
use crate::random::Random;

/// A reader's numbers and its ring's length: mostly those of an open reader, or one of them is anything.
#[derive(Clone, Copy)]
pub struct Shape {
    pub maximum: usize,
    pub margin: usize,
    pub accepted: u64,
    pub length: usize,
}

impl Random {
    pub fn shape(&mut self) -> Shape {
        // a long ring costs its length at each call, so it is seldom lent
        let most = match self.word() % (1 << 20) {
            0 => 24,
            1..=63 => 16,
            64..=8191 => 12,
            _ => 6,
        };
        let right = 1usize << (3 + self.word() % (most - 2));
        let least = if right == 8 { 8 } else { right / 2 + 1 };
        let need = least + (self.word() % (right - least + 1) as u64) as usize;
        let margin = (self.word() % ((need as u64 - 8) / 2 + 1)) as usize;
        let accepted = match self.word() % 8 {
            0 => END as u64 - self.word() % 3,
            1 => END as u64 - self.word() % (2 * right as u64),
            2 => self.word() >> 28,
            _ => self.word() % (3 * right as u64),
        };
        let mut shape = Shape { maximum: need - 8 - 2 * margin, margin, accepted, length: self.length(right, 1 << 24) };
        match self.word() % 64 {
            0 => shape.maximum = self.pick(&[(1 << 24) - 8, (1 << 24) - 7, 1 << 24, usize::MAX, usize::MAX - 7]),
            1 => shape.maximum = self.whole() as usize,
            2 => shape.margin = self.whole() as usize,
            3 => shape.accepted = self.pick(&[END as u64 + 1, u64::MAX, 1 << 63, END as u64 + 2]),
            4 => shape.accepted = self.whole(),
            _ => {}
        }
        shape
    }

    /// A slice's length, of any kind, and the count that goes with it: its length, or anything.
    pub fn source(&mut self) -> (usize, u64) {
        let length = match self.word() % 64 {
            0 => self.word() % 60000,
            1..=31 => 1 << (self.word() % 8),
            _ => self.word() % 100,
        };
        let count = if self.one_in(2) { length } else { self.whole() };
        (length as usize, count)
    }

    /// A length that is mostly `right`, with what lies beside it.
    pub fn length(&mut self, right: usize, most: usize) -> usize {
        match self.word() % 32 {
            0 => self.pick(&[0, 1, right.wrapping_sub(1), right + 1, right / 2, right * 2, 3]).min(most),
            1 => (self.word() % 100) as usize,
            _ => right,
        }
    }

    /// A sample of a recording, or anything.
    pub fn sample(&mut self) -> f64 {
        match self.word() % 16 {
            0 => self.float(),
            1 => self.pick(&[f64::MAX, -f64::MAX, 1e308, 5e-324, 0.0, -0.0]),
            _ => 2.0 * self.unit() - 1.0,
        }
    }

    /// A delay about a ring of this length, or anything.
    pub fn delay(&mut self, length: usize) -> f64 {
        let whole = (self.word() % (length as u64 + 4)) as f64;
        match self.word() % 16 {
            0 => self.float(),
            1 => self.pick(&[END, END.next_up(), END.next_down(), -5e-324, 1e-300, f64::NAN, f64::INFINITY]),
            2 | 3 => self.pick(&[whole, whole.next_up(), whole.next_down(), 0.0, -0.0]),
            _ => self.unit() * (length as f64 + 4.0),
        }
    }

    /// A position about a slice of this length, or anything.
    pub fn position(&mut self, length: usize) -> f64 {
        let whole = (self.word() % (length as u64 + 8)) as f64 - 4.0;
        match self.word() % 16 {
            0 => self.float(),
            1 => self.pick(&[END, END.next_up(), -END, -END.next_up(), END - 0.5, 1e-300, -1e-300]),
            2 | 3 => self.pick(&[whole, whole.next_up(), whole.next_down()]),
            _ => whole + self.unit(),
        }
    }
}
