//! The oversampled readers, as the original has them. A bad input or delay panics here: the original pushes it into its
//! filters and goes on, which the port does not take over.

use super::or_panic;
use crate::{boundary::Absent, doors::Door, strict};

/// Oversampling by 2 or 4 around a variable-delay kernel, between two filters. Allocates only when it is made.
pub struct OversampledVariableDelay<K, const FACTOR: usize>(strict::OversampledVariableDelay<K, FACTOR>);

impl<K: Door, const FACTOR: usize> OversampledVariableDelay<K, FACTOR> {
    #[track_caller]
    pub fn new(max_delay_samples: usize, kernel_margin_high_rate: usize, filter_taps: usize, kernel: K) -> Self {
        let reader =
            strict::OversampledVariableDelay::new(max_delay_samples, kernel_margin_high_rate, filter_taps, kernel);
        Self(or_panic(reader))
    }

    #[inline]
    #[track_caller]
    pub fn process_sample(&mut self, input: f64, delay_samples: f64) -> f64 {
        or_panic(self.0.process_sample(input, delay_samples))
    }

    /// The same with the number of its inner readings' absent taps, by kind, which the original does not count.
    #[inline]
    #[track_caller]
    pub fn process_sample_told(&mut self, input: f64, delay_samples: f64) -> (f64, Absent) {
        let (answer, absent) = self.0.process_sample_told(input, delay_samples);
        (or_panic(answer), absent)
    }

    pub fn latency_samples(&self) -> f64 {
        self.0.latency_samples()
    }

    pub fn reset(&mut self) {
        self.0.reset();
    }
}

/// Four-times oversampling as two stages of two.
pub struct CascadedOversampledVariableDelay4x<K>(strict::CascadedOversampledVariableDelay4x<K>);

impl<K: Door> CascadedOversampledVariableDelay4x<K> {
    #[track_caller]
    pub fn new(max_delay_samples: usize, kernel_margin_high_rate: usize, kernel: K) -> Self {
        Self(or_panic(strict::CascadedOversampledVariableDelay4x::new(
            max_delay_samples,
            kernel_margin_high_rate,
            kernel,
        )))
    }

    #[inline]
    #[track_caller]
    pub fn process_sample(&mut self, input: f64, delay_samples: f64) -> f64 {
        or_panic(self.0.process_sample(input, delay_samples))
    }

    /// The same with the number of its inner readings' absent taps, by kind, which the original does not count.
    #[inline]
    #[track_caller]
    pub fn process_sample_told(&mut self, input: f64, delay_samples: f64) -> (f64, Absent) {
        let (answer, absent) = self.0.process_sample_told(input, delay_samples);
        (or_panic(answer), absent)
    }

    pub fn latency_samples(&self) -> f64 {
        self.0.latency_samples()
    }

    pub fn reset(&mut self) {
        self.0.reset();
    }
}
