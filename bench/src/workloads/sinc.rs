//! The windowed sinc: tables, an answer being an element, and the delay readers over them, one call a
//! sample: a ring of 1024, samples from -1 to 1, delays of 200 to 400 samples that wander.

use crate::full;
use crate::random::Random;
use crate::Workload;
use boundary::Width;
use wow_dsp::{VariableDelay, VariableDelayF32, WindowedSinc, WindowedSincF32};

/// By name: making one may take seconds.
pub const WORKLOADS: &[(&str, fn() -> Workload)] = &[
    ("sinc32", sinc32),
    ("sinc96", sinc96),
    ("sinc_f32_32", sinc_f32_32),
    ("sinc_f32_80", sinc_f32_80),
    ("sinc_f32_96", sinc_f32_96),
    ("sinc_f32_128", sinc_f32_128),
    ("table_f32", table_f32),
    ("table_f32_full", table_f32_full),
];

pub const CUTOFF: f64 = 0.9;
pub const BETA: f64 = 12.0;

pub fn inputs() -> Vec<(f64, f64)> {
    let mut random = Random::new(1);
    (0..20000).map(|i| (random.unit() * 2.0 - 1.0, 200.0 + (i % 777) as f64 * 0.25 + random.unit() * 3.0)).collect()
}

macro_rules! reader {
    ($name:ident, $float:ty, $reader:ident, $kernel:ident, $taps:literal, $phases:literal) => {
        pub fn $name() -> Workload {
            let (mut theirs, mut ours) = ($reader::new(1000, 0, $kernel::new($taps, $phases, CUTOFF, BETA)), vec![0.0; 1024]);
            let mut table = vec![0.0; ($phases + 1) * $taps];
            assert_eq!(<$float>::build($taps, $phases, CUTOFF, BETA, &mut table), 0);
            let (samples, again, mut accepted) = (inputs(), inputs(), 0);
            Workload {
                answers: samples.len(),
                rust: Box::new(move |answers| {
                    for (to, (input, delay)) in answers.iter_mut().zip(&samples) {
                        *to = theirs.process_sample(*input as $float, *delay).to_bits() as u64;
                    }
                }),
                port: Box::new(move |answers| {
                    for (to, (input, delay)) in answers.iter_mut().zip(&again) {
                        let mut sample: $float = 0.0;
                        <$float>::sinc_process(
                            1000, 0, &mut accepted, &mut ours, *input as $float, *delay, &table, $taps, $phases, &mut sample,
                        );
                        *to = sample.to_bits() as u64;
                    }
                }),
            }
        }
    };
}

reader!(sinc32, f64, VariableDelay, WindowedSinc, 32, 64);
reader!(sinc96, f64, VariableDelay, WindowedSinc, 96, 512);
reader!(sinc_f32_32, f32, VariableDelayF32, WindowedSincF32, 32, 64);
reader!(sinc_f32_80, f32, VariableDelayF32, WindowedSincF32, 80, 512);
reader!(sinc_f32_96, f32, VariableDelayF32, WindowedSincF32, 96, 512);
reader!(sinc_f32_128, f32, VariableDelayF32, WindowedSincF32, 128, 512);

/// A table of 96 taps and 64 phases, as an anti-aliasing kernel for a rate: by the Rust and by the port.
fn table(rust: impl Fn() -> Vec<f32> + 'static, port: impl Fn(&mut [f32]) + 'static) -> Workload {
    let mut table = vec![0.0f32; (PHASES + 1) * TAPS];
    let patterns = |answers: &mut [u64], table: &[f32]| {
        for (to, x) in answers.iter_mut().zip(table) {
            *to = x.to_bits() as u64;
        }
    };
    Workload {
        answers: table.len(),
        rust: Box::new(move |answers| patterns(answers, &rust())),
        port: Box::new(move |answers| {
            port(&mut table);
            patterns(answers, &table)
        }),
    }
}

const TAPS: usize = 96;
const PHASES: usize = 64;

pub fn table_f32() -> Workload {
    table(
        || WindowedSincF32::for_max_rate(TAPS, PHASES, 1.02, 0.995, 14.0).table,
        |table| _ = f32::build_for_max_rate(TAPS, PHASES, 1.02, 0.995, 14.0, table),
    )
}

/// The same in the full mode of the sum called I0, beside 000's lines with 64 terms.
pub fn table_f32_full() -> Workload {
    table(
        || full::table(TAPS, PHASES, 0.995 / 1.02, 14.0).into_iter().map(|x| x as f32).collect(),
        |table| _ = f32::build_for_max_rate_in(TAPS, PHASES, 1.02, 0.995, 14.0, 1, table),
    )
}
