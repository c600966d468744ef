//! A kernel reads the same from a slice, from a source of anyone's own, and from a delay reader's ring; the bank reads as its tables do.

use fugnadri::strict::{self, Refusal};
use fugnadri::*;
use std::sync::Arc;

struct Own<'a>(&'a [f64]);

impl SampleSource for Own<'_> {
    fn at(&self, index: i64) -> f64 {
        SliceSource(self.0).at(index)
    }
}

impl SampleSourceF32 for Own<'_> {
    fn at_f32(&self, index: i64) -> f32 {
        self.at(index) as f32
    }
}

struct Before;

impl SampleSource for Before {
    fn at(&self, index: i64) -> f64 {
        if index < 0 {
            1.0
        } else {
            0.0
        }
    }
}

fn wave(n: usize) -> Vec<f64> {
    (0..n).map(|i| ((i * i * 37 % 101) as f64 - 50.0) / 64.0).collect()
}

fn reads_alike<K: Kernel>(kernel: &K) {
    let samples = wave(300);
    for step in -50..1300 {
        for nudge in [0.0, 1e-300, -1e-300, 1e-9] {
            let position = f64::from(step) * 0.25 + nudge;
            let slice = kernel.sample(&SliceSource(&samples), position);
            let own = kernel.sample(&Own(&samples), position);
            assert_eq!(slice.to_bits(), own.to_bits(), "{} at {position}", kernel.name());
        }
    }
    assert_eq!(kernel.sample(&SliceSource(&[]), 0.5), 0.0);
    for position in [f64::NAN, f64::INFINITY, 1e300, -68_719_476_737.0] {
        assert_eq!(strict::Kernel::sample(kernel, &Own(&samples), position), Err(Refusal::Setting));
        assert_eq!(strict::Kernel::sample(kernel, &SliceSource(&samples), position), Err(Refusal::Setting));
    }
    assert_eq!(strict::Kernel::sample(kernel, &Before, 0.5), Err(Refusal::Setting));
    assert_eq!(strict::Kernel::sample(kernel, &Before, 200.5), Ok(0.0));
}

#[test]
fn slices_and_own_sources() {
    reads_alike(&CubicFarrow);
    reads_alike(&Farrow8);
    reads_alike(&Lagrange::<6>);
    reads_alike(&Lagrange::<16>);
    reads_alike(&WindowedSinc::new(8, 3, 0.5, 12.0));
    reads_alike(&WindowedSinc::new(128, 16, 1.0, 16.0));
}

#[test]
fn a_ring_and_a_slice() {
    let samples = wave(500);
    let [kernel, beside] = [(); 2].map(|()| WindowedSincF32::for_max_rate(80, 2048, 1.0, 0.995, 12.0));
    let bank = Arc::new(SincBankF32::for_max_rate(1.0));
    let mut plain = VariableDelayF32::new(400, 64, kernel);
    let mut quality = QualityVariableDelayF32::new(400, 64, bank, QualityMode::Normal, 32);
    let mut double = VariableDelay::new(400, 64, Farrow8);
    for (i, &input) in samples.iter().enumerate() {
        let delay = 50.3 + 40.0 * (i as f64 * 0.01).sin();
        let single = plain.process_sample(input as f32, delay);
        assert_eq!(single.to_bits(), beside.sample_f32(&Own(&samples[..=i]), i as f64 - delay).to_bits(), "sample {i}");
        assert_eq!(single.to_bits(), quality.process_sample(input as f32, delay, QualityMode::Normal).to_bits());
        assert_eq!(double.process_sample(input, delay), Farrow8.sample(&SliceSource(&samples[..=i]), i as f64 - delay));
    }
}
