//! The reader whose quality may change, with the bank that it shares.

use super::{Fading, SincBankF32};
use crate::{
    boundary::{Absent, ItemsF32},
    quality_mode::QualityMode,
    Refusal, Stopped,
};
use std::sync::Arc;

/// Shared-table variable delay with click-free, allocation-free quality changes.
pub struct QualityVariableDelayF32 {
    pub(crate) reader: Fading,
    kernels: Arc<SincBankF32>,
}

impl QualityVariableDelayF32 {
    /// Refused by 1 where the ring would be longer than 2^24, or the fade longer than 2^24 samples.
    pub fn new(
        max_delay_samples: usize,
        kernel_margin: usize,
        kernels: Arc<SincBankF32>,
        quality: QualityMode,
        crossfade_samples: u32,
    ) -> Result<Self, Refusal> {
        Ok(Self { reader: Fading::new(max_delay_samples, kernel_margin, quality, crossfade_samples)?, kernels })
    }

    /// The same by a second rule for a change of quality, which the original does not have: going back runs the weight
    /// down again from where it stands, and a third quality waits until the running fade has ended.
    pub fn new_returning(
        max_delay_samples: usize,
        kernel_margin: usize,
        kernels: Arc<SincBankF32>,
        quality: QualityMode,
        crossfade_samples: u32,
    ) -> Result<Self, Refusal> {
        let reader = Fading::new_returning(max_delay_samples, kernel_margin, quality, crossfade_samples)?;
        Ok(Self { reader, kernels })
    }

    /// Reads at the bank's own rate. Refused by 4, 5, 6 or 8; a refused call forgets the quality that it asked for.
    #[inline]
    pub fn process_sample(
        &mut self,
        input: f32,
        delay_samples: f64,
        requested_quality: QualityMode,
    ) -> Result<f32, Refusal> {
        self.reader.process(&self.kernels, input, delay_samples, requested_quality)
    }

    /// Reads at a rate of its own, clamped from 1 to the bank's. Refused by 7 too, where the rate is NaN, in Draft also.
    #[inline]
    pub fn process_sample_rate_aware(
        &mut self,
        input: f32,
        delay_samples: f64,
        requested_quality: QualityMode,
        playback_rate: f64,
    ) -> Result<f32, Refusal> {
        self.reader.process_rate_aware(&self.kernels, input, delay_samples, requested_quality, playback_rate)
    }

    /// `process_sample` with the number of its absent taps, by kind: those of every reading that it makes, both
    /// qualities' during a fade and both sets' of a blend; three zeros if it is refused.
    pub fn process_sample_told(
        &mut self,
        input: f32,
        delay_samples: f64,
        requested_quality: QualityMode,
    ) -> (Result<f32, Refusal>, Absent) {
        self.reader.process_told(&self.kernels, input, delay_samples, requested_quality, None)
    }

    /// `process_sample_rate_aware` with them.
    pub fn process_sample_rate_aware_told(
        &mut self,
        input: f32,
        delay_samples: f64,
        requested_quality: QualityMode,
        playback_rate: f64,
    ) -> (Result<f32, Refusal>, Absent) {
        self.reader.process_told(&self.kernels, input, delay_samples, requested_quality, Some(playback_rate))
    }

    /// `process_sample_rate_aware` item by item, in one call, with one quality and one rate, up to the first item that is
    /// refused. Refused by 2 before the first item where the three lengths differ.
    pub fn process_stretch(
        &mut self,
        inputs: &[f32],
        delays: &[f64],
        requested_quality: QualityMode,
        playback_rate: f64,
        out: &mut [f32],
    ) -> Result<(), Stopped> {
        let items = ItemsF32 { inputs, delays, done: 0 };
        self.reader.stretch(&self.kernels, items, requested_quality, playback_rate, out)
    }

    /// The same with the absent taps of every reading of all items done, added up by kind.
    pub fn process_stretch_told(
        &mut self,
        inputs: &[f32],
        delays: &[f64],
        requested_quality: QualityMode,
        playback_rate: f64,
        out: &mut [f32],
    ) -> (Result<(), Stopped>, Absent) {
        let items = ItemsF32 { inputs, delays, done: 0 };
        self.reader.stretch_told(&self.kernels, items, requested_quality, playback_rate, out)
    }

    pub fn reset(&mut self) {
        self.reader.reset();
    }
}
