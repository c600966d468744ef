//! Whole stretches of the f32 readers beside the original's single calls: a ring of 1024, samples from -1 to 1, delays of
//! 200 to 400 samples that wander, 20000 items in calls of 4000; the quality reader over a bank of two sets. Those whose
//! names end in `_told` also add up their absent taps, which the original does not count.

use super::quality::{closed, sets, MAX, MODES};
use super::sinc::{inputs, BETA, CUTOFF};
use crate::Workload;
use boundary::{sinc_f32_stretch, sinc_f32_stretch_told, Absent, Asked, ItemsF32, LentF32, Width};
use std::sync::Arc;
use wow_dsp::{QualityVariableDelayF32, SincBankF32, VariableDelayF32, WindowedSincF32};

/// By name: making one may take seconds.
pub const WORKLOADS: &[(&str, fn() -> Workload)] = &[
    ("sinc_f32_32_stretch", || sinc(32, 64, false)),
    ("sinc_f32_96_stretch", || sinc(96, 512, false)),
    ("sinc_f32_96_stretch_told", || sinc(96, 512, true)),
    ("sinc_f32_128_stretch", || sinc(128, 512, false)),
    ("quality_draft_stretch", || quality(0, 1.0, false)),
    ("quality_hq_stretch", || quality(2, 1.0, false)),
    ("quality_hq_stretch_told", || quality(2, 1.0, true)),
    ("quality_hq_two_sets_stretch", || quality(2, 1.004, false)),
];

const CALL: usize = 4000;

type Single = Box<dyn FnMut(f32, f64) -> f32>;
type Stretch = Box<dyn FnMut(&mut ItemsF32, &mut [f32]) -> u8>;

fn workload(mut single: Single, mut stretch: Stretch) -> Workload {
    let (samples, delays): (Vec<f32>, Vec<f64>) = inputs().into_iter().map(|(x, y)| (x as f32, y)).unzip();
    let (again, ways, mut out) = (samples.clone(), delays.clone(), vec![0.0; samples.len()]);
    Workload {
        answers: samples.len(),
        rust: Box::new(move |answers| {
            for (to, (input, delay)) in answers.iter_mut().zip(samples.iter().zip(&delays)) {
                *to = single(*input, *delay).to_bits() as u64;
            }
        }),
        port: Box::new(move |answers| {
            for ((inputs, delays), out) in again.chunks(CALL).zip(ways.chunks(CALL)).zip(out.chunks_mut(CALL)) {
                stretch(&mut ItemsF32 { inputs, delays, done: 0 }, out);
            }
            for (to, sample) in answers.iter_mut().zip(&out) {
                *to = sample.to_bits() as u64;
            }
        }),
    }
}

fn sinc(taps: usize, phases: usize, tells: bool) -> Workload {
    let mut table = vec![0.0; (phases + 1) * taps];
    assert_eq!(f32::build(taps, phases, CUTOFF, BETA, &mut table), 0);
    let mut theirs = VariableDelayF32::new(1000, 0, WindowedSincF32::new(taps, phases, CUTOFF, BETA));
    let (mut ring, mut accepted) = (vec![0.0; 1024], 0);
    workload(
        Box::new(move |input, delay| theirs.process_sample(input, delay)),
        Box::new(move |items, out| {
            let (lent, mut absent) = (LentF32 { table: &table, taps, phases }, Absent::default());
            match tells {
                false => sinc_f32_stretch(1000, 0, &mut accepted, &mut ring, items, lent, out),
                true => sinc_f32_stretch_told(1000, 0, &mut accepted, &mut ring, items, lent, out, &mut absent),
            }
        }),
    )
}

fn quality(quality: u8, playback_rate: f64, tells: bool) -> Workload {
    let mode = MODES[quality as usize];
    let mut theirs = QualityVariableDelayF32::new(1000, 0, Arc::new(SincBankF32::for_max_rate(MAX)), mode, 960);
    let (sets, mut ours) = (sets(), closed(960));
    assert_eq!(ours.open(quality), 0);
    workload(
        Box::new(move |input, delay| theirs.process_sample_rate_aware(input, delay, mode, playback_rate)),
        Box::new(move |items, out| {
            let (asked, mut absent) = (Asked { sets: &sets, max_rate: MAX, quality, playback_rate }, Absent::default());
            match tells {
                false => ours.stretch(items, asked, out),
                true => ours.stretch_told(items, asked, out, &mut absent),
            }
        }),
    )
}
