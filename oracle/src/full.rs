//! W5c. A table in the full mode of the sum called I0: 000's `WindowedSinc::new` line by line, with 64 terms for its 24.
//! Its sine is the port's own, as in the original that is compared.

use std::f64::consts::PI;

fn bessel_i0(x: f64) -> f64 {
    let y = x * x / 4.0;
    let mut sum = 1.0;
    let mut term = 1.0;
    for k in 1..=64 {
        term *= y / (k as f64 * k as f64);
        sum += term;
        if term < sum * 1.0e-16 {
            break;
        }
    }
    sum
}

fn sinc(x: f64) -> f64 {
    if x.abs() < 1.0e-12 {
        1.0
    } else {
        boundary::sine(PI * x) / (PI * x)
    }
}

pub fn table(taps: usize, phases: usize, cutoff: f64, beta: f64) -> Vec<f64> {
    let mut table = vec![0.0; (phases + 1) * taps];
    let denom = bessel_i0(beta);
    let center = taps as f64 / 2.0 - 1.0;
    for phase in 0..=phases {
        let frac = phase as f64 / phases as f64;
        let row = &mut table[phase * taps..(phase + 1) * taps];
        let mut gain = 0.0;
        for (k, coefficient) in row.iter_mut().enumerate() {
            let distance = k as f64 - center - frac;
            let normalized = (2.0 * k as f64 / (taps - 1) as f64) - 1.0;
            let window = bessel_i0(beta * (1.0 - normalized * normalized).max(0.0).sqrt()) / denom;
            *coefficient = cutoff * sinc(cutoff * distance) * window;
            gain += *coefficient;
        }
        for coefficient in row {
            *coefficient /= gain;
        }
    }
    table
}
