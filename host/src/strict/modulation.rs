//! 001: the two oscillators and their drift. Rates from -1000 to 1000 Hz, depths from -1200 to 1200 cents, sample rates from 8000 to 768000 Hz.

use crate::{boundary, Refusal};

pub use crate::params::{ModulationParams, StereoDelayOffset, MAX_SHAPE_PRIMITIVE};

/// Two independent speed LFOs with seeded, rate-derived drift sources. Deterministic after reset; allocates nothing.
pub struct ModulationEngine {
    pub(crate) words: [u64; 15],
}

impl ModulationEngine {
    pub fn new(sample_rate: f64, seed: u64) -> Result<Self, Refusal> {
        let mut words = [0; 15];
        Refusal::of(boundary::engine_new(sample_rate, seed, &mut words)).map(|()| Self { words })
    }

    /// Refused by 1, and the rate stays, where it is out of its range.
    pub fn set_sample_rate(&mut self, sample_rate: f64) -> Result<(), Refusal> {
        Refusal::of(boundary::engine_set_sample_rate(&mut self.words, sample_rate))
    }

    /// Each generator starts anew where the seed is another than its own. Never refused: the state is the port's own.
    pub fn set_seed(&mut self, seed: u64) {
        let number = boundary::engine_set_seed(&mut self.words, seed);
        debug_assert_eq!(number, 0);
    }

    pub fn reset(&mut self) {
        let number = boundary::engine_reset(&mut self.words);
        debug_assert_eq!(number, 0);
    }

    /// Left/right delay offsets in samples, then one sample further. Refused by 1 where one of the eight settings is not finite or out of range.
    #[allow(clippy::should_implement_trait)]
    pub fn next(&mut self, params: ModulationParams) -> Result<StereoDelayOffset, Refusal> {
        let p = params;
        let mut offset = StereoDelayOffset::default();
        let number = boundary::engine_next(
            &mut self.words,
            p.wow_rate_hz,
            p.wow_depth_cents,
            p.wow_shape,
            p.flutter_rate_hz,
            p.flutter_depth_cents,
            p.flutter_shape,
            p.drift_amount,
            p.stereo_amount,
            &mut offset.left,
            &mut offset.right,
        );
        Refusal::of(number).map(|()| offset)
    }
}

/// The value of an exported function that answers through its last argument.
fn value(call: impl FnOnce(&mut f64) -> u8) -> Result<f64, Refusal> {
    let mut result = 0.0;
    let number = call(&mut result);
    Refusal::of(number).map(|()| result)
}

/// Conservative delay excursion for one oscillator across every shape. The least rate is from 0.001 to 1000 Hz.
pub fn maximum_delay_excursion_samples(
    max_depth_cents: f64,
    min_rate_hz: f64,
    sample_rate: f64,
) -> Result<f64, Refusal> {
    value(|result| boundary::maximum_delay_excursion_samples(max_depth_cents, min_rate_hz, sample_rate, result))
}

/// Conservative maximum positive playback-rate delta for the constant-power LFO blend at the maximum Drift rate multiplier.
pub fn maximum_rate_delta(depths_cents: &[f64]) -> Result<f64, Refusal> {
    value(|result| boundary::maximum_rate_delta(depths_cents, result))
}

/// Analytic antiderivative of the speed wave. Phase from -51 to 51.
pub fn shape_primitive(phase: f64, shape: f64) -> Result<f64, Refusal> {
    value(|result| boundary::shape_primitive(phase, shape, result))
}

/// The original's private three, which the port exports too.
pub fn oscillator_delay(
    phase: f64,
    rate_hz: f64,
    depth_cents: f64,
    shape: f64,
    sample_rate: f64,
) -> Result<f64, Refusal> {
    value(|result| boundary::oscillator_delay(phase, rate_hz, depth_cents, shape, sample_rate, result))
}

pub fn speed_delta(depth_cents: f64) -> Result<f64, Refusal> {
    value(|result| boundary::speed_delta(depth_cents, result))
}

pub fn advance_phase(phase: f64, rate_hz: f64, sample_rate: f64) -> Result<f64, Refusal> {
    value(|result| boundary::advance_phase(phase, rate_hz, sample_rate, result))
}
