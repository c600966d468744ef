//! Sine and cosine from -51 to 51, as the oscillators ask for them, and 2^x from -1 to 1, beside the standard library's. The two sides' answers differ in their last
//! places, so they are not compared here: oracle/elementary does that.

use crate::random::Random;
use crate::{one_by_one, Workload};

/// By name: making one may take seconds.
pub const WORKLOADS: &[(&str, fn() -> Workload)] = &[
    ("sine", sine),
    ("cosine", cosine),
    ("exp2", exp2),
];

fn workload(range: f64, rust: fn(f64) -> f64, port: fn(f64) -> f64) -> Workload {
    let mut random = Random::new(1);
    let inputs: Vec<f64> = (0..20000).map(|_| (random.unit() * 2.0 - 1.0) * range).collect();
    Workload {
        answers: inputs.len(),
        rust: one_by_one(&inputs, move |x| near(rust(x))),
        port: one_by_one(&inputs, move |x| near(port(x))),
    }
}

/// All that is compared here: that the answer is a number.
fn near(x: f64) -> u64 {
    x.is_finite() as u64
}

#[inline(never)]
fn sin(x: f64) -> f64 {
    x.sin()
}

#[inline(never)]
fn cos(x: f64) -> f64 {
    x.cos()
}

#[inline(never)]
fn powf(x: f64) -> f64 {
    2.0_f64.powf(x)
}

pub fn sine() -> Workload {
    workload(51.0, sin, boundary::sine)
}

pub fn cosine() -> Workload {
    workload(51.0, cos, boundary::cosine)
}

pub fn exp2() -> Workload {
    workload(1.0, powf, boundary::exp2)
}
