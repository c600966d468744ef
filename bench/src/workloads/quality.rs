//! The reader whose quality may change, one call a sample, over a bank of two sets: one set's table, two sets blended, and mixed calls of a fade by either rule. A ring
//! of 1024, samples from -1 to 1, delays of 200 to 400 samples that wander.

use crate::random::Random;
use crate::Workload;
use boundary::QualityReader;
use std::sync::Arc;
use wow_dsp::{QualityMode, QualityVariableDelayF32, SincBankF32};

/// By name: making one may take seconds.
pub const WORKLOADS: &[(&str, fn() -> Workload)] = &[
    ("quality_draft", draft),
    ("quality_hq", plain),
    ("quality_hq_two_sets", blended),
    ("quality_mixed", mixed),
    ("quality_returning", returning),
];

pub const MAX: f64 = 1.02;
pub const MODES: [QualityMode; 4] = [QualityMode::Draft, QualityMode::Normal, QualityMode::Hq, QualityMode::Ultra];

fn inputs() -> Vec<(f32, f64)> {
    let mut random = Random::new(1);
    (0..20000).map(|i| ((random.unit() * 2.0 - 1.0) as f32, 200.0 + (i % 777) as f64 * 0.25 + random.unit() * 3.0)).collect()
}

pub fn sets() -> Vec<f32> {
    let mut sets = vec![0.0; boundary::bank_length(MAX)];
    assert_eq!(boundary::bank_build(MAX, &mut sets), 0);
    sets
}

pub fn closed(fade: u32) -> QualityReader {
    QualityReader {
        maximum: 1000,
        margin: 0,
        accepted: 0,
        current: 0,
        target: 0,
        crossfade_position: 0,
        crossfade_samples: fade,
        rule: 0,
        direction: 0,
        ring: vec![0.0; 1024],
    }
}

/// Calls ask for the qualities in turn. Two that are not the one opened with make a fade that never ends: each call starts it again.
fn workload(opened: u8, asked: &'static [u8], rate: f64, fade: u32) -> Workload {
    let inputs = inputs();
    let samples = inputs.clone();
    let mut theirs = QualityVariableDelayF32::new(1000, 0, Arc::new(SincBankF32::for_max_rate(MAX)), MODES[opened as usize], fade);
    let (sets, mut ours) = (sets(), closed(fade));
    assert_eq!(ours.open(opened), 0);
    Workload {
        answers: inputs.len(),
        rust: Box::new(move |answers| {
            for (i, (to, (input, delay))) in answers.iter_mut().zip(&inputs).enumerate() {
                let quality = MODES[asked[i % asked.len()] as usize];
                *to = theirs.process_sample_rate_aware(*input, *delay, quality, rate).to_bits() as u64;
            }
        }),
        port: Box::new(move |answers| {
            for (i, (to, (input, delay))) in answers.iter_mut().zip(&samples).enumerate() {
                let mut sample = 0.0;
                ours.process_rate_aware(&sets, MAX, *input, *delay, asked[i % asked.len()], rate, &mut sample);
                *to = sample.to_bits() as u64;
            }
        }),
    }
}

pub fn draft() -> Workload {
    workload(0, &[0], 1.0, 960)
}

pub fn plain() -> Workload {
    workload(2, &[2], 1.0, 960)
}

pub fn blended() -> Workload {
    workload(2, &[2], 1.004, 960)
}

/// From Hq to Normal and to Ultra in turn: every call is mixed.
pub fn mixed() -> Workload {
    workload(2, &[1, 3], 1.0, 960)
}

/// The second rule (W9) in 000's reader: what its own step is handed where a fade runs.
fn handed(reader: &mut QualityVariableDelayF32, back: &mut bool, asked: QualityMode) -> QualityMode {
    if reader.current_quality == reader.target_quality {
        return asked;
    }
    *back = asked != reader.target_quality && (asked == reader.current_quality || *back);
    if *back && reader.crossfade_position > 1 {
        reader.crossfade_position -= 2;
    } else if *back {
        (reader.target_quality, reader.crossfade_position, *back) = (reader.current_quality, reader.crossfade_samples, false);
    }
    reader.target_quality
}

/// From Hq half-way to Normal and back again by the second rule: nearly every call is mixed, half of them on the way back.
pub fn returning() -> Workload {
    let asked = |i: usize| if i % 960 < 480 { 1 } else { 2 };
    let inputs = inputs();
    let samples = inputs.clone();
    let mut theirs = QualityVariableDelayF32::new(1000, 0, Arc::new(SincBankF32::for_max_rate(MAX)), MODES[2], 960);
    let (sets, mut ours, mut back) = (sets(), closed(960), false);
    assert_eq!(ours.open_returning(2), 0);
    Workload {
        answers: inputs.len(),
        rust: Box::new(move |answers| {
            for (i, (to, (input, delay))) in answers.iter_mut().zip(&inputs).enumerate() {
                let quality = handed(&mut theirs, &mut back, MODES[asked(i)]);
                *to = theirs.process_sample_rate_aware(*input, *delay, quality, 1.0).to_bits() as u64;
            }
        }),
        port: Box::new(move |answers| {
            for (i, (to, (input, delay))) in answers.iter_mut().zip(&samples).enumerate() {
                let mut sample = 0.0;
                ours.process_rate_aware(&sets, MAX, *input, *delay, asked(i) as u8, 1.0, &mut sample);
                *to = sample.to_bits() as u64;
            }
        }),
    }
}
