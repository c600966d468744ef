//! The bank of tables, and the reader whose quality may change, as the original has them.

use super::{
    delays::{goes_on, goes_on_told},
    or_panic, or_silence,
};
use crate::{
    boundary::{Absent, ItemsF32},
    quality_mode::QualityMode,
    strict, Mode,
};
use std::sync::Arc;

/// Prebuilt interpolation tables for allocation-free quality switching.
pub struct SincBankF32(pub(crate) strict::SincBankF32);

impl SincBankF32 {
    #[track_caller]
    pub fn for_max_rate(max_rate: f64) -> Self {
        Self(or_panic(strict::SincBankF32::for_max_rate(max_rate)))
    }

    /// With every window by the sum called I0 in a mode, which the original does not have.
    #[track_caller]
    pub fn for_max_rate_in(max_rate: f64, mode: Mode) -> Self {
        Self(or_panic(strict::SincBankF32::for_max_rate_in(max_rate, mode)))
    }

    pub fn mode(&self) -> Mode {
        self.0.mode()
    }
}

/// Shared-table variable delay with click-free, allocation-free quality changes.
pub struct QualityVariableDelayF32 {
    pub(crate) reader: strict::Fading,
    kernels: Arc<SincBankF32>,
}

impl QualityVariableDelayF32 {
    #[track_caller]
    pub fn new(
        max_delay_samples: usize,
        kernel_margin: usize,
        kernels: Arc<SincBankF32>,
        quality: QualityMode,
        crossfade_samples: u32,
    ) -> Self {
        Self {
            reader: or_panic(strict::Fading::new(max_delay_samples, kernel_margin, quality, crossfade_samples)),
            kernels,
        }
    }

    /// By a second rule for a change of quality, which the original does not have: going back runs the weight down again
    /// from where it stands, and a third quality waits until the running fade has ended.
    #[track_caller]
    pub fn new_returning(
        max_delay_samples: usize,
        kernel_margin: usize,
        kernels: Arc<SincBankF32>,
        quality: QualityMode,
        crossfade_samples: u32,
    ) -> Self {
        let reader = strict::Fading::new_returning(max_delay_samples, kernel_margin, quality, crossfade_samples);
        Self { reader: or_panic(reader), kernels }
    }

    #[inline]
    #[track_caller]
    pub fn process_sample(&mut self, input: f32, delay_samples: f64, requested_quality: QualityMode) -> f32 {
        let answer = self.reader.process(&self.kernels.0, input, delay_samples, requested_quality);
        or_silence(answer, input.is_finite(), delay_samples)
    }

    /// Panics where the rate is NaN: the original then answers NaN, and in Draft a sample.
    #[inline]
    #[track_caller]
    pub fn process_sample_rate_aware(
        &mut self,
        input: f32,
        delay_samples: f64,
        requested_quality: QualityMode,
        playback_rate: f64,
    ) -> f32 {
        let answer =
            self.reader.process_rate_aware(&self.kernels.0, input, delay_samples, requested_quality, playback_rate);
        or_silence(answer, input.is_finite(), delay_samples)
    }

    /// `process_sample` with the number of its absent taps, by kind, which the original does not count: those of every
    /// reading that it makes; three zeros where it does not advance.
    #[track_caller]
    pub fn process_sample_told(
        &mut self,
        input: f32,
        delay_samples: f64,
        requested_quality: QualityMode,
    ) -> (f32, Absent) {
        let (answer, absent) = self.reader.process_told(&self.kernels.0, input, delay_samples, requested_quality, None);
        (or_silence(answer, input.is_finite(), delay_samples), absent)
    }

    /// `process_sample_rate_aware` with them.
    #[track_caller]
    pub fn process_sample_rate_aware_told(
        &mut self,
        input: f32,
        delay_samples: f64,
        requested_quality: QualityMode,
        playback_rate: f64,
    ) -> (f32, Absent) {
        let rate = Some(playback_rate);
        let (answer, absent) = self.reader.process_told(&self.kernels.0, input, delay_samples, requested_quality, rate);
        (or_silence(answer, input.is_finite(), delay_samples), absent)
    }

    /// `process_sample_rate_aware` item by item, in one call, with one quality and one rate, which the original does not
    /// have. A bad item gives 0.0 and does not advance, as there; it panics where the three lengths differ.
    #[track_caller]
    pub fn process_stretch(
        &mut self,
        inputs: &[f32],
        delays: &[f64],
        requested_quality: QualityMode,
        playback_rate: f64,
        out: &mut [f32],
    ) {
        goes_on(out, |at, out| {
            let items = ItemsF32 { inputs: &inputs[at..], delays: &delays[at..], done: 0 };
            self.reader.stretch(&self.kernels.0, items, requested_quality, playback_rate, out)
        });
    }

    /// The same with the absent taps of every reading of all items that advance, added up by kind.
    #[track_caller]
    pub fn process_stretch_told(
        &mut self,
        inputs: &[f32],
        delays: &[f64],
        requested_quality: QualityMode,
        playback_rate: f64,
        out: &mut [f32],
    ) -> Absent {
        goes_on_told(out, |at, out| {
            let items = ItemsF32 { inputs: &inputs[at..], delays: &delays[at..], done: 0 };
            self.reader.stretch_told(&self.kernels.0, items, requested_quality, playback_rate, out)
        })
    }

    pub fn reset(&mut self) {
        self.reader.reset();
    }
}
