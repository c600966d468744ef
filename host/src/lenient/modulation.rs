//! 001 as the original has it. Outside the ranges of `strict::modulation` it panics; a sample rate that the original leaves aside is left aside.

use super::or_panic;
use crate::strict::modulation as strict;

pub use crate::params::{ModulationParams, StereoDelayOffset, MAX_SHAPE_PRIMITIVE};

/// Two independent speed LFOs with seeded, rate-derived drift sources. Deterministic after reset; allocates nothing.
pub struct ModulationEngine(pub(crate) strict::ModulationEngine);

impl ModulationEngine {
    #[track_caller]
    pub fn new(sample_rate: f64, seed: u64) -> Self {
        Self(or_panic(strict::ModulationEngine::new(sample_rate, seed)))
    }

    #[track_caller]
    pub fn set_sample_rate(&mut self, sample_rate: f64) {
        if sample_rate.is_finite() && sample_rate > 0.0 {
            or_panic(self.0.set_sample_rate(sample_rate));
        }
    }

    pub fn set_seed(&mut self, seed: u64) {
        self.0.set_seed(seed);
    }

    pub fn reset(&mut self) {
        self.0.reset();
    }

    /// Left/right delay offsets in samples, then one sample further.
    #[allow(clippy::should_implement_trait)]
    #[track_caller]
    pub fn next(&mut self, params: ModulationParams) -> StereoDelayOffset {
        or_panic(self.0.next(params))
    }
}

/// Conservative delay excursion for one oscillator across every shape.
#[track_caller]
pub fn maximum_delay_excursion_samples(max_depth_cents: f64, min_rate_hz: f64, sample_rate: f64) -> f64 {
    or_panic(strict::maximum_delay_excursion_samples(max_depth_cents, min_rate_hz, sample_rate))
}

/// Conservative maximum positive playback-rate delta for the constant-power LFO blend at the maximum Drift rate multiplier.
#[track_caller]
pub fn maximum_rate_delta(depths_cents: &[f64]) -> f64 {
    or_panic(strict::maximum_rate_delta(depths_cents))
}

/// Analytic antiderivative of the speed wave.
#[track_caller]
pub fn shape_primitive(phase: f64, shape: f64) -> f64 {
    or_panic(strict::shape_primitive(phase, shape))
}

/// The original's private three, which the port exports too.
#[track_caller]
pub fn oscillator_delay(phase: f64, rate_hz: f64, depth_cents: f64, shape: f64, sample_rate: f64) -> f64 {
    or_panic(strict::oscillator_delay(phase, rate_hz, depth_cents, shape, sample_rate))
}

#[track_caller]
pub fn speed_delta(depth_cents: f64) -> f64 {
    or_panic(strict::speed_delta(depth_cents))
}

#[track_caller]
pub fn advance_phase(phase: f64, rate_hz: f64, sample_rate: f64) -> f64 {
    or_panic(strict::advance_phase(phase, rate_hz, sample_rate))
}
