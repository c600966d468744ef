//! A desk's call of the quality reader, over a room of four slots that are all held: this desk's bank of two sets, and
//! two sets of the other desk's. The Rust reads a bank of its own, as its other users do. And asking again for the last
//! of four held sets, beside the same tests in plain Rust.

use crate::random::Random;
use crate::Workload;
use boundary::{Caller, QualityReader, RoomRead};
use std::{hint::black_box, sync::Arc};
use wow_dsp::{QualityMode, QualityVariableDelayF32, SincBankF32};

pub const WORKLOADS: &[(&str, fn() -> Workload)] =
    &[("desk_hq", plain), ("desk_hq_two_sets", blended), ("ask_again", again)];

const MAX: f64 = 1.02;
const SET: usize = 1_081_648;

fn inputs() -> Vec<(f32, f64)> {
    let mut random = Random::new(1);
    let delay = |i: usize, more: f64| 200.0 + (i % 777) as f64 * 0.25 + more * 3.0;
    (0..20000).map(|i| ((random.unit() * 2.0 - 1.0) as f32, delay(i, random.unit()))).collect()
}

/// Desk one holds the first two slots, desk two the others.
fn room() -> (Vec<f64>, Vec<u8>, Vec<f32>) {
    let rates = vec![boundary::bank_set_rate(MAX, 0), boundary::bank_set_rate(MAX, 1), 1.5, 1.6];
    let mut slots = vec![0.0; 4 * SET];
    for (rate, slot) in rates.iter().zip(slots.chunks_mut(SET)) {
        assert_eq!(boundary::bank_build_set(*rate, slot), 0);
    }
    (rates, vec![1, 1, 2, 2], slots)
}

fn workload(rate: f64) -> Workload {
    let inputs = inputs();
    let samples = inputs.clone();
    let bank = Arc::new(SincBankF32::for_max_rate(MAX));
    let mut theirs = QualityVariableDelayF32::new(1000, 0, bank, QualityMode::Hq, 960);
    let (rates, marks, slots) = room();
    let mut ours = QualityReader {
        maximum: 1000,
        margin: 0,
        accepted: 0,
        current: 0,
        target: 0,
        crossfade_position: 0,
        crossfade_samples: 960,
        rule: 0,
        direction: 0,
        ring: vec![0.0; 1024],
    };
    assert_eq!(ours.open(2), 0);
    Workload {
        answers: inputs.len(),
        rust: Box::new(move |answers| {
            for (to, (input, delay)) in answers.iter_mut().zip(&inputs) {
                *to = theirs.process_sample_rate_aware(*input, *delay, QualityMode::Hq, rate).to_bits() as u64;
            }
        }),
        port: Box::new(move |answers| {
            let room = RoomRead { rates: &rates, marks: &marks, slots: &slots };
            for (to, (input, delay)) in answers.iter_mut().zip(&samples) {
                let mut sample = 0.0;
                let by = Caller { desk: 1, mode: 0 };
                ours.desk_process_rate_aware(by, room, MAX, *input, *delay, 2, rate, &mut sample);
                *to = sample.to_bits() as u64;
            }
        }),
    }
}

pub fn plain() -> Workload {
    workload(1.0)
}

pub fn blended() -> Workload {
    workload(1.004)
}

/// W4. The slot of a desk's set in the ported mode, or the number of the refusal.
fn ask(desk: u8, rate: f64, rates: &[f64], marks: &mut [u8], floats: usize) -> Result<usize, u8> {
    let is = |m: u8, r: f64, full: bool, rate: f64| m != 0 && (m >= 4) == full && r == rate;
    let twice = |k: usize| (0..k).any(|j| is(marks[j], rates[j], marks[k] >= 4, rates[k]));
    let known = |k: usize| marks[k] < 8 && marks[k] != 4 && (1.0..=2.0).contains(&rates[k]);
    let fine = |k: usize| marks[k] == 0 || known(k) && !twice(k);
    match () {
        _ if !(1.0..=2.0).contains(&rate) => Err(1),
        _ if rates.len() != marks.len() || floats != marks.len() * SET => Err(2),
        _ if !(0..marks.len()).all(fine) => Err(3),
        _ => {
            let place = (0..marks.len()).find(|k| is(marks[*k], rates[*k], false, rate)).ok_or(16)?;
            marks[place] |= desk;
            Ok(place)
        }
    }
}

pub fn again() -> Workload {
    let mut rates = vec![1.0, 1.25, 1.5, 1.75];
    let mut marks = vec![1, 2, 3, 1];
    let mut slots = vec![0.0; 4 * SET];
    let (theirs, mut held, floats) = (rates.clone(), marks.clone(), slots.len());
    Workload {
        answers: 20000,
        rust: Box::new(move |answers| {
            for to in answers {
                *to = ask(1, black_box(1.75), &theirs, &mut held, floats).expect("a held set") as u64;
            }
        }),
        port: Box::new(move |answers| {
            for to in answers {
                let mut slot = 0;
                assert_eq!(boundary::room_ask(1, black_box(1.75), 0, &mut rates, &mut marks, &mut slots, &mut slot), 0);
                *to = slot as u64;
            }
        }),
    }
}
