//! What the engine is handed and hands back, as in the original.

#[derive(Clone, Copy, Debug)]
pub struct ModulationParams {
    pub wow_rate_hz: f64,
    pub wow_depth_cents: f64,
    /// -1 = rounded square, 0 = sine, +1 = triangle.
    pub wow_shape: f64,
    pub flutter_rate_hz: f64,
    pub flutter_depth_cents: f64,
    /// -1 = rounded square, 0 = sine, +1 = triangle.
    pub flutter_shape: f64,
    /// Independent, rate-derived random variation of both oscillators, 0..1.
    pub drift_amount: f64,
    /// Symmetric L/R modulation phase displacement, 0..1 = 0..180 degrees.
    pub stereo_amount: f64,
}

impl Default for ModulationParams {
    fn default() -> Self {
        Self {
            wow_rate_hz: 0.55,
            wow_depth_cents: 8.0,
            wow_shape: 0.0,
            flutter_rate_hz: 12.0,
            flutter_depth_cents: 0.0,
            flutter_shape: 0.0,
            drift_amount: 0.0,
            stereo_amount: 0.0,
        }
    }
}

#[derive(Clone, Copy, Debug, Default)]
pub struct StereoDelayOffset {
    pub left: f64,
    pub right: f64,
}

/// Greatest absolute value of any normalized waveform antiderivative; the rounded square reaches it at phase zero.
pub const MAX_SHAPE_PRIMITIVE: f64 = 7.0 / 6.0;
