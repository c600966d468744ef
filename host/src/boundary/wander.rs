//! 001: the engine, and what stands outside it.

// The engine's state is 15 words: the sample rate, the two phases, then six for each generator; a float is its pattern.
numbers! {
    fn fugnadri_engine_new as engine_new(sample_rate: f64, seed: u64, words: &mut [u64; 15]) -> u8;
    fn fugnadri_engine_set_sample_rate as engine_set_sample_rate(words: &mut [u64; 15], sample_rate: f64) -> u8;
    fn fugnadri_engine_set_seed as engine_set_seed(words: &mut [u64; 15], seed: u64) -> u8;
    fn fugnadri_engine_reset as engine_reset(words: &mut [u64; 15]) -> u8;
    fn fugnadri_engine_next as engine_next(words: &mut [u64; 15], wow_rate_hz: f64, wow_depth_cents: f64, wow_shape: f64, flutter_rate_hz: f64, flutter_depth_cents: f64, flutter_shape: f64, drift_amount: f64, stereo_amount: f64, left: &mut f64, right: &mut f64) -> u8;
}

// The refusal's number, 0 for none; the value, 0.0 where it is refused, through the pointer.
numbers! {
    fn fugnadri_speed_delta as speed_delta(depth_cents: f64, res: &mut f64) -> u8;
    fn fugnadri_advance_phase as advance_phase(phase: f64, rate_hz: f64, sample_rate: f64, res: &mut f64) -> u8;
    fn fugnadri_shape_primitive as shape_primitive(phase: f64, shape: f64, res: &mut f64) -> u8;
    fn fugnadri_oscillator_delay as oscillator_delay(phase: f64, rate_hz: f64, depth_cents: f64, shape: f64, sample_rate: f64, res: &mut f64) -> u8;
    fn fugnadri_maximum_delay_excursion_samples as maximum_delay_excursion_samples(max_depth_cents: f64, min_rate_hz: f64, sample_rate: f64, res: &mut f64) -> u8;
}

extern "C" {
    fn fugnadri_maximum_rate_delta(depths_cents: *const f64, depths_cents_len: usize, res: &mut f64) -> u8;
}

#[inline]
pub fn maximum_rate_delta(depths_cents: &[f64], result: &mut f64) -> u8 {
    unsafe { fugnadri_maximum_rate_delta(depths_cents.as_ptr(), depths_cents.len(), result) }
}
