//! The f64 fused step, of samples and coefficients from -1 to 1. One call an answer, on either side.

use crate::random::Random;
use crate::{one_by_one, Workload};

/// By name: making one may take seconds.
pub const WORKLOADS: &[(&str, fn() -> Workload)] = &[
    ("fused64", workload),
];

#[inline(never)]
fn rust(a: f64, b: f64, c: f64) -> f64 {
    a.mul_add(b, c)
}

pub fn workload() -> Workload {
    let mut random = Random::new(1);
    let inputs: Vec<[f64; 3]> = (0..20000).map(|_| [0; 3].map(|_| random.unit() * 2.0 - 1.0)).collect();
    Workload {
        answers: inputs.len(),
        rust: one_by_one(&inputs, |[a, b, c]| rust(a, b, c).to_bits()),
        port: one_by_one(&inputs, |[a, b, c]| boundary::fused64(a, b, c).to_bits()),
    }
}
