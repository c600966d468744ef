//! A table of the windowed sinc, built into memory of its own.

use crate::{boundary::Width, Mode, Refusal};

/// A table, its settings and the mode of its window, in either width.
pub struct Table<T> {
    pub taps: usize,
    pub phases: usize,
    pub mode: Mode,
    pub values: Vec<T>,
}

impl<T: Width + Default> Table<T> {
    /// Zeros of the length that the settings need; none where the taps or phases are out of range, since the port refuses them by 1 whatever is lent.
    fn zeros(taps: usize, phases: usize, mode: Mode) -> Self {
        let length = if taps <= 128 && phases <= 4096 { (phases + 1) * taps } else { 0 };
        Self { taps, phases, mode, values: vec![T::default(); length] }
    }

    pub fn new(taps: usize, phases: usize, cutoff: f64, beta: f64, mode: Mode) -> Result<Self, Refusal> {
        let mut table = Self::zeros(taps, phases, mode);
        Refusal::of(T::build_in(taps, phases, cutoff, beta, mode as u8, &mut table.values)).map(|()| table)
    }

    #[rustfmt::skip]
    pub fn for_max_rate(
        taps: usize, phases: usize, max_rate: f64, passband: f64, beta: f64, mode: Mode,
    ) -> Result<Self, Refusal> {
        let mut table = Self::zeros(taps, phases, mode);
        let number = T::build_for_max_rate_in(taps, phases, max_rate, passband, beta, mode as u8, &mut table.values);
        Refusal::of(number).map(|()| table)
    }
}
