//! The square root, of numbers from 0 to 1 as in a table's window. One call an answer, on either side.

use crate::random::Random;
use crate::{one_by_one, Workload};

/// By name: making one may take seconds.
pub const WORKLOADS: &[(&str, fn() -> Workload)] = &[
    ("square_root", workload),
];

#[inline(never)]
fn rust(x: f64) -> f64 {
    x.sqrt()
}

pub fn workload() -> Workload {
    let mut random = Random::new(1);
    let inputs: Vec<f64> = (0..20000).map(|_| random.unit()).collect();
    Workload {
        answers: inputs.len(),
        rust: one_by_one(&inputs, |x| rust(x).to_bits()),
        port: one_by_one(&inputs, |x| boundary::square_root(x).to_bits()),
    }
}
