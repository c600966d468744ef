//! The bank of tables: it owns them, and a reader lends them at each call.

use crate::{
    boundary::{bank_build_in, bank_length},
    Mode, Refusal,
};

/// Prebuilt interpolation tables for allocation-free quality switching: 1081648 f32 for each set, a set for each 0.02 of rate above 1.
pub struct SincBankF32 {
    pub(crate) sets: Vec<f32>,
    pub(super) max_rate: f64,
    mode: Mode,
}

impl SincBankF32 {
    /// `max_rate` is the greatest playback speed that will be asked for, from 1 to 2: else refused by 1.
    pub fn for_max_rate(max_rate: f64) -> Result<Self, Refusal> {
        Self::for_max_rate_in(max_rate, Mode::Ported)
    }

    /// The same, every window by the sum called I0 in a mode.
    pub fn for_max_rate_in(max_rate: f64, mode: Mode) -> Result<Self, Refusal> {
        let mut sets = vec![0.0; bank_length(max_rate)];
        Refusal::of(bank_build_in(max_rate, mode as u8, &mut sets))?;
        Ok(Self { sets, max_rate, mode })
    }

    pub fn mode(&self) -> Mode {
        self.mode
    }
}
