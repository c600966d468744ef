//! W13. The residual of two stretches of whole samples, over any number of calls, all exact.

use crate::boundary::{residual_compare, ReportWords};
use crate::Refusal;

/// What was compared so far: how many samples, the largest absolute difference, where it stands first, and the sum of
/// the squared differences. Cutting the stretches differently gives the same.
#[derive(Clone, Copy, Debug, Default, Eq, PartialEq)]
pub struct Residual {
    words: ReportWords,
}

impl Residual {
    /// Nothing compared yet.
    pub fn new() -> Self {
        Self::default()
    }

    /// An earlier report, taken up again. Refused by 3 ([`Refusal::State`]) unless it has a number of at most 2^36, a
    /// largest difference below 2^24, a place below the number (none where that is 0), and a sum from largest squared
    /// to number × largest squared.
    pub fn carried(number: u64, largest: u32, place: Option<u64>, sum: u128) -> Result<Self, Refusal> {
        let (high, low) = ((sum >> 64) as u64, sum as u64);
        let placed = place.is_some().into();
        let words = ReportWords { number, largest, placed, place: place.unwrap_or(0), high, low };
        let mut residual = Residual { words };
        residual.compare(&[], &[]).map(|()| residual)
    }

    /// Compares two stretches of samples from -2^23 to 2^23 - 1, sample by sample. A refused call adds nothing: by 1
    /// ([`Refusal::Setting`]) for a value outside that range, by 2 ([`Refusal::Length`]) where one stretch is longer,
    /// by 8 ([`Refusal::Full`]) where more than 2^36 samples would have been compared in all.
    pub fn compare(&mut self, a: &[i32], b: &[i32]) -> Result<(), Refusal> {
        Refusal::of(residual_compare(&mut self.words, a, b))
    }

    /// How many samples were compared.
    pub fn number(&self) -> u64 {
        self.words.number
    }

    /// The largest absolute difference, 0 where nothing was compared.
    pub fn largest(&self) -> u32 {
        self.words.largest
    }

    /// Where the largest difference stands first, counted from 0 at the first sample of all calls.
    pub fn place(&self) -> Option<u64> {
        (self.words.placed == 1).then_some(self.words.place)
    }

    /// The sum of the squared differences.
    pub fn sum(&self) -> u128 {
        u128::from(self.words.high) << 64 | u128::from(self.words.low)
    }
}
