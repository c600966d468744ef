//! The integer part, of positions as a reader has them. One call an answer, on either side.

use crate::random::Random;
use crate::{one_by_one, Workload};

/// By name: making one may take seconds.
pub const WORKLOADS: &[(&str, fn() -> Workload)] = &[
    ("floor", workload),
];

#[inline(never)]
fn rust(x: f64) -> i64 {
    x.floor() as i64
}

pub fn workload() -> Workload {
    let mut random = Random::new(1);
    let inputs: Vec<f64> = (0..20000).map(|_| random.unit() * 48000.0 - 100.0).collect();
    Workload {
        answers: inputs.len(),
        rust: one_by_one(&inputs, |x| rust(x) as u64),
        port: one_by_one(&inputs, |x| boundary::floor(x) as u64),
    }
}
