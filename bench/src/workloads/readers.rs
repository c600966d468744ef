//! The f64 delay readers over the kernels without a table, one call a sample: a ring of 1024, samples from -1 to 1,
//! delays of 100 to 300 samples that wander; and whole stretches of them, as stretches.rs has them.

use super::stretches;
use crate::random::Random;
use crate::Workload;
use boundary::{Exports, Reader, CUBIC, FARROW8, LAGRANGE};
use wow_dsp::{CubicFarrow, Farrow8, Kernel, Lagrange, VariableDelay};

type Named = (&'static str, fn() -> Workload);

/// The original's kernel, the port's exports, and the taps that a call asks for: 0 where the kernel has a number of its
/// own.
macro_rules! kernels {
    ($($kernel:expr, $exports:expr, $taps:literal;)*) => {
        /// One call a sample.
        pub fn workloads() -> Vec<Named> {
            vec![$((named(&$exports, $taps, ""), || {
                workload($kernel, |reader, input, delay, to| ($exports.process)(reader, input, delay, $taps, to))
            })),*]
        }

        /// Whole stretches.
        pub fn stretches() -> Vec<Named> {
            vec![$((named(&$exports, $taps, "_stretch"), || {
                stretches::workload($kernel, |reader, items, out| ($exports.stretch)(reader, items, $taps, out))
            })),*]
        }
    };
}

kernels! {
    CubicFarrow, CUBIC, 0;
    Lagrange::<8>, LAGRANGE, 8;
    Lagrange::<16>, LAGRANGE, 16;
    Farrow8, FARROW8, 0;
}

fn named(exports: &Exports, taps: u64, kind: &str) -> &'static str {
    let taps = if taps == 0 { String::new() } else { taps.to_string() };
    format!("{}{taps}{kind}", exports.name).leak()
}

/// A sample and a delay for each call.
pub fn inputs() -> Vec<[f64; 2]> {
    let mut random = Random::new(1);
    (0..20000).map(|i| [random.unit() * 2.0 - 1.0, 100.0 + (i % 777) as f64 * 0.25 + random.unit() * 3.0]).collect()
}

fn workload<K: Kernel + 'static>(kernel: K, port: impl Fn(&mut Reader, f64, f64, &mut f64) -> u8 + 'static) -> Workload {
    let inputs = inputs();
    let samples = inputs.clone();
    let mut theirs = VariableDelay::new(1000, 0, kernel);
    let mut ours = Reader { maximum: 1000, margin: 0, accepted: 0, ring: vec![0.0; 1024] };
    Workload {
        answers: inputs.len(),
        rust: Box::new(move |answers| {
            for (to, [input, delay]) in answers.iter_mut().zip(&inputs) {
                *to = theirs.process_sample(*input, *delay).to_bits();
            }
        }),
        port: Box::new(move |answers| {
            for (to, [input, delay]) in answers.iter_mut().zip(&samples) {
                let mut sample = 0.0;
                port(&mut ours, *input, *delay, &mut sample);
                *to = sample.to_bits();
            }
        }),
    }
}
