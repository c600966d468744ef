//! Whole stretches of the f64 delay readers beside the original's single calls: a ring of 1024, samples from -1 to 1, delays
//! of 100 to 300 samples that wander, 20000 items in calls of 4000.

use crate::random::Random;
use crate::Workload;
use boundary::{Items, Lent, Reader, Width};
use wow_dsp::{Kernel, VariableDelay, WindowedSinc};

/// By name, those over a table: making one may take seconds.
pub const WORKLOADS: &[(&str, fn() -> Workload)] =
    &[("sinc32_stretch", || sinc(32, 64)), ("sinc96_stretch", || sinc(96, 512))];

const CALL: usize = 4000;

pub fn workload<K: Kernel + 'static>(
    kernel: K,
    port: impl Fn(&mut Reader, &mut Items, &mut [f64]) -> u8 + 'static,
) -> Workload {
    let mut random = Random::new(1);
    let inputs: Vec<[f64; 2]> = (0..20000)
        .map(|i| [random.unit() * 2.0 - 1.0, 100.0 + (i % 777) as f64 * 0.25 + random.unit() * 3.0])
        .collect();
    let (samples, delays): (Vec<f64>, Vec<f64>) = inputs.iter().map(|[input, delay]| (*input, *delay)).unzip();
    let mut theirs = VariableDelay::new(1000, 0, kernel);
    let mut ours = Reader { maximum: 1000, margin: 0, accepted: 0, ring: vec![0.0; 1024] };
    Workload {
        answers: inputs.len(),
        rust: Box::new(move |answers| {
            for (to, [input, delay]) in answers.iter_mut().zip(&inputs) {
                *to = theirs.process_sample(*input, *delay).to_bits();
            }
        }),
        port: Box::new(move |answers| {
            for ((inputs, delays), answers) in samples.chunks(CALL).zip(delays.chunks(CALL)).zip(answers.chunks_mut(CALL)) {
                // the answers are the outputs' patterns, so the outputs are written in their place
                let out = unsafe { std::slice::from_raw_parts_mut(answers.as_mut_ptr().cast::<f64>(), answers.len()) };
                port(&mut ours, &mut Items { inputs, delays, done: 0 }, out);
            }
        }),
    }
}

fn sinc(taps: usize, phases: usize) -> Workload {
    let mut table = vec![0.0; (phases + 1) * taps];
    assert_eq!(f64::build(taps, phases, 0.9, 12.0, &mut table), 0);
    workload(WindowedSinc::new(taps, phases, 0.9, 12.0), move |r, items, out| {
        r.sinc_stretch(items, Lent { table: &table, taps, phases }, out)
    })
}
