//! A step of 001's engine at 48 kHz, both offsets: settings as the plugin opens with, and settings that use all of it (both depths, shapes of either sign, drift, stereo)
//! and move a little at every sample, as smoothed parameters do.

use crate::random::Random;
use crate::Workload;
use wow_dsp::modulation::{ModulationEngine, ModulationParams};

/// By name: making one may take seconds.
pub const WORKLOADS: &[(&str, fn() -> Workload)] = &[
    ("engine", engine),
    ("engine_default", engine_default),
];

fn workload(inputs: Vec<ModulationParams>) -> Workload {
    let settings = inputs.clone();
    let mut theirs = ModulationEngine::new(48000.0, 1);
    let mut ours = [0; 15];
    boundary::engine_new(48000.0, 1, &mut ours);
    Workload {
        answers: inputs.len(),
        rust: Box::new(move |answers| {
            for (to, p) in answers.iter_mut().zip(&inputs) {
                let offset = theirs.next(*p);
                *to = both(offset.left, offset.right);
            }
        }),
        port: Box::new(move |answers| {
            for (to, p) in answers.iter_mut().zip(&settings) {
                let (mut left, mut right) = (0.0, 0.0);
                boundary::engine_next(
                    &mut ours,
                    p.wow_rate_hz,
                    p.wow_depth_cents,
                    p.wow_shape,
                    p.flutter_rate_hz,
                    p.flutter_depth_cents,
                    p.flutter_shape,
                    p.drift_amount,
                    p.stereo_amount,
                    &mut left,
                    &mut right,
                );
                *to = both(left, right);
            }
        }),
    }
}

/// Both patterns in one word.
fn both(left: f64, right: f64) -> u64 {
    left.to_bits() ^ right.to_bits().rotate_left(1)
}

pub fn engine_default() -> Workload {
    workload(vec![ModulationParams::default(); 20000])
}

pub fn engine() -> Workload {
    let mut random = Random::new(1);
    let mut near = |x: f64| x * (1.0 + 0.01 * random.unit());
    let inputs = (0..20000).map(|_| ModulationParams {
        wow_rate_hz: near(0.55),
        wow_depth_cents: near(8.0),
        wow_shape: near(0.3),
        flutter_rate_hz: near(12.0),
        flutter_depth_cents: near(3.0),
        flutter_shape: near(-0.4),
        drift_amount: near(0.5),
        stereo_amount: near(0.5),
    });
    workload(inputs.collect())
}
