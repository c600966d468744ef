//! The oversampled readers with the cubic, one call a sample, on the inputs of `cubic`: the factors 2 and 4 with filters
//! of 65 taps, and the cascade, which has filters of its own.

use super::readers::inputs;
use crate::Workload;
use boundary::{Cascaded, Named, Oversampled};
use wow_dsp::{CascadedOversampledVariableDelay4x, CubicFarrow, OversampledVariableDelay};

/// By name: making one may take seconds.
pub const WORKLOADS: &[(&str, fn() -> Workload)] =
    &[("oversampled2_cubic", twice), ("oversampled4_cubic", four_times), ("cascaded4_cubic", cascaded)];

const MAXIMUM: usize = 1000;
const TAPS: usize = 65;
const CUBIC: Named = Named { kernel: 0, points: 0, phases: 0, table: &[] };

fn workload(
    mut rust: impl FnMut(f64, f64) -> f64 + 'static,
    mut port: impl FnMut(f64, f64) -> f64 + 'static,
) -> Workload {
    let inputs = inputs();
    let samples = inputs.clone();
    Workload {
        answers: inputs.len(),
        rust: Box::new(move |answers| {
            for (to, [input, delay]) in answers.iter_mut().zip(&inputs) {
                *to = rust(*input, *delay).to_bits();
            }
        }),
        port: Box::new(move |answers| {
            for (to, [input, delay]) in answers.iter_mut().zip(&samples) {
                *to = port(*input, *delay).to_bits();
            }
        }),
    }
}

/// The inner ring's length: the factor times the maximum, and 8, raised to a power of two.
fn ring(factor: usize) -> Vec<f64> {
    vec![0.0; (factor * MAXIMUM + 8).next_power_of_two()]
}

fn direct<const FACTOR: usize>() -> Workload {
    let mut theirs = OversampledVariableDelay::<_, FACTOR>::new(MAXIMUM, 0, TAPS, CubicFarrow);
    let mut ours = Oversampled {
        maximum: MAXIMUM,
        factor: FACTOR,
        taps: TAPS,
        coefficients: vec![0.0; TAPS],
        up: vec![0.0; boundary::filter_history(TAPS, FACTOR)],
        down: vec![0.0; TAPS],
        ring: ring(FACTOR),
        ..Oversampled::default()
    };
    assert_eq!(ours.open(), 0);
    workload(
        move |input, delay| theirs.process_sample(input, delay),
        move |input, delay| {
            let mut sample = 0.0;
            ours.process(CUBIC, input, delay, &mut sample);
            sample
        },
    )
}

pub fn twice() -> Workload {
    direct::<2>()
}

pub fn four_times() -> Workload {
    direct::<4>()
}

pub fn cascaded() -> Workload {
    let mut theirs = CascadedOversampledVariableDelay4x::new(MAXIMUM, 0, CubicFarrow);
    let mut ours = Cascaded {
        maximum: MAXIMUM,
        halfband: vec![0.0; 65],
        last: vec![0.0; 129],
        up1: vec![0.0; 33],
        up2: vec![0.0; 33],
        down2: vec![0.0; 65],
        down1: vec![0.0; 129],
        ring: ring(4),
        ..Cascaded::default()
    };
    assert_eq!(ours.open(), 0);
    workload(
        move |input, delay| theirs.process_sample(input, delay),
        move |input, delay| {
            let mut sample = 0.0;
            ours.process(CUBIC, input, delay, &mut sample);
            sample
        },
    )
}
