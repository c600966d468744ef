//! The oversampled readers: each owns its coefficients, its histories and its inner ring.

use crate::{
    boundary::{cascaded_latency, filter_history, filter_latency, Absent, Cascaded, Oversampled},
    doors::{ring_length, Door},
    Refusal,
};

/// The inner ring's length for a maximum in host samples; 0 where the port refuses the settings by 1.
fn inner_length(factor: usize, maximum: usize, margin: usize) -> usize {
    maximum.checked_mul(factor).map_or(0, |high| ring_length(high, margin))
}

/// Oversampling by 2 or 4 around a variable-delay kernel, between two filters. Allocates only when it is made.
pub struct OversampledVariableDelay<K, const FACTOR: usize> {
    reader: Oversampled,
    kernel: K,
}

impl<K: Door, const FACTOR: usize> OversampledVariableDelay<K, FACTOR> {
    /// Refused by 1 for a factor other than 2 and 4, for taps that are even or outside 17 to 129, and where
    /// `FACTOR * max_delay_samples + 2 * kernel_margin_high_rate + 8` is above 2^24.
    pub fn new(
        max_delay_samples: usize,
        kernel_margin_high_rate: usize,
        filter_taps: usize,
        kernel: K,
    ) -> Result<Self, Refusal> {
        let history = filter_history(filter_taps, FACTOR);
        let taps = if history == 0 { 0 } else { filter_taps };
        let mut reader = Oversampled {
            maximum: max_delay_samples,
            margin: kernel_margin_high_rate,
            factor: FACTOR,
            taps: filter_taps,
            coefficients: vec![0.0; taps],
            up: vec![0.0; history],
            down: vec![0.0; taps],
            ring: vec![0.0; inner_length(FACTOR, max_delay_samples, kernel_margin_high_rate)],
            ..Default::default()
        };
        Refusal::of(reader.open())?;
        Ok(Self { reader, kernel })
    }

    /// Refused by 4, 5, 6 (above 2^34) or 8 (2^34 samples); by 1 where the kernel is a `Lagrange` of taps out of range.
    #[inline]
    pub fn process_sample(&mut self, input: f64, delay_samples: f64) -> Result<f64, Refusal> {
        let mut sample = 0.0;
        let number = self.reader.process(self.kernel.named(), input, delay_samples, &mut sample);
        Refusal::of(number).map(|()| sample)
    }

    /// The same with the number of its inner readings' absent taps, by kind: three zeros if it is refused.
    #[inline]
    pub fn process_sample_told(&mut self, input: f64, delay_samples: f64) -> (Result<f64, Refusal>, Absent) {
        let (mut sample, mut absent) = (0.0, Absent::default());
        let number = self.reader.process_told(self.kernel.named(), input, delay_samples, &mut sample, &mut absent);
        (Refusal::of(number).map(|()| sample), absent)
    }

    /// The filters' latency in host samples.
    pub fn latency_samples(&self) -> f64 {
        filter_latency(self.reader.taps, FACTOR)
    }

    /// Zeroes the histories, the inner ring, both counts and the previous delay. Never refused.
    pub fn reset(&mut self) {
        let number = self.reader.reset();
        debug_assert_eq!(number, 0);
    }
}

/// Four-times oversampling as two stages of two, with filters of 65 and 129 taps.
pub struct CascadedOversampledVariableDelay4x<K> {
    reader: Cascaded,
    kernel: K,
}

impl<K: Door> CascadedOversampledVariableDelay4x<K> {
    /// Refused by 1 where `4 * max_delay_samples + 2 * kernel_margin_high_rate + 8` is above 2^24.
    pub fn new(max_delay_samples: usize, kernel_margin_high_rate: usize, kernel: K) -> Result<Self, Refusal> {
        let zeros = |length| vec![0.0; length];
        let mut reader = Cascaded {
            maximum: max_delay_samples,
            margin: kernel_margin_high_rate,
            halfband: zeros(65),
            last: zeros(129),
            up1: zeros(33),
            up2: zeros(33),
            down2: zeros(65),
            down1: zeros(129),
            ring: zeros(inner_length(4, max_delay_samples, kernel_margin_high_rate)),
            ..Default::default()
        };
        Refusal::of(reader.open())?;
        Ok(Self { reader, kernel })
    }

    /// Refused as the direct reader's.
    #[inline]
    pub fn process_sample(&mut self, input: f64, delay_samples: f64) -> Result<f64, Refusal> {
        let mut sample = 0.0;
        let number = self.reader.process(self.kernel.named(), input, delay_samples, &mut sample);
        Refusal::of(number).map(|()| sample)
    }

    /// The same with the number of its inner readings' absent taps, by kind: three zeros if it is refused.
    #[inline]
    pub fn process_sample_told(&mut self, input: f64, delay_samples: f64) -> (Result<f64, Refusal>, Absent) {
        let (mut sample, mut absent) = (0.0, Absent::default());
        let number = self.reader.process_told(self.kernel.named(), input, delay_samples, &mut sample, &mut absent);
        (Refusal::of(number).map(|()| sample), absent)
    }

    pub fn latency_samples(&self) -> f64 {
        cascaded_latency()
    }

    /// Zeroes the histories, the inner ring, both counts and the previous delay. Never refused.
    pub fn reset(&mut self) {
        let number = self.reader.reset();
        debug_assert_eq!(number, 0);
    }
}
