//! f64 to f32, of samples from -1 to 1. One call an answer, on either side.

use crate::random::Random;
use crate::{one_by_one, Workload};

/// By name: making one may take seconds.
pub const WORKLOADS: &[(&str, fn() -> Workload)] = &[
    ("narrow", workload),
];

#[inline(never)]
fn rust(x: f64) -> f32 {
    x as f32
}

pub fn workload() -> Workload {
    let mut random = Random::new(1);
    let inputs: Vec<f64> = (0..20000).map(|_| random.unit() * 2.0 - 1.0).collect();
    Workload {
        answers: inputs.len(),
        rust: one_by_one(&inputs, |x| rust(x).to_bits() as u64),
        port: one_by_one(&inputs, |x| boundary::narrow(x).to_bits() as u64),
    }
}
