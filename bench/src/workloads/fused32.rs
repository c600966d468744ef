//! The f32 fused step, of samples and coefficients from -1 to 1. One call an answer, on either side.

use crate::random::Random;
use crate::{one_by_one, Workload};

/// By name: making one may take seconds.
pub const WORKLOADS: &[(&str, fn() -> Workload)] = &[
    ("fused32", workload),
];

#[inline(never)]
fn rust(a: f32, b: f32, c: f32) -> f32 {
    a.mul_add(b, c)
}

pub fn workload() -> Workload {
    let mut random = Random::new(1);
    let inputs: Vec<[f32; 3]> = (0..20000).map(|_| [0; 3].map(|_| (random.unit() * 2.0 - 1.0) as f32)).collect();
    Workload {
        answers: inputs.len(),
        rust: one_by_one(&inputs, |[a, b, c]| rust(a, b, c).to_bits() as u64),
        port: one_by_one(&inputs, |[a, b, c]| boundary::fused32(a, b, c).to_bits() as u64),
    }
}
