//! Whole stretches of the f32 readers beside their single calls: every output, what is done, and what comes after. The
//! quality reader is asked for another quality in each stretch, so that a fade goes on from one into the next.

use fugnadri::{strict, Absent, QualityMode, Refusal, Stopped};
use fugnadri::{QualityVariableDelayF32, SincBankF32, VariableDelayF32, WindowedSincF32};
use std::sync::Arc;

/// Samples and delays about a ring of 64, from a plain generator.
fn items(many: usize) -> (Vec<f32>, Vec<f64>) {
    let mut word = 0x9E37_79B9_7F4A_7C15u64;
    let mut unit = || {
        word ^= word << 13;
        word ^= word >> 7;
        word ^= word << 17;
        (word >> 11) as f64 / (1u64 << 53) as f64
    };
    (0..many).map(|_| ((2.0 * unit() - 1.0) as f32, 80.0 * unit())).unzip()
}

/// A stretch with a bad item, nowhere or somewhere, and how it ends.
fn stretches() -> Vec<(Vec<f32>, Vec<f64>, Result<(), Stopped>)> {
    [None, Some((0, Refusal::Input)), Some((97, Refusal::Delay)), Some((199, Refusal::LongDelay)), None]
        .into_iter()
        .map(|bad| {
            let (mut inputs, mut delays) = items(200);
            match bad {
                Some((at, Refusal::Input)) => inputs[at] = f32::INFINITY,
                Some((at, Refusal::Delay)) => delays[at] = -1.0,
                Some((at, _)) => delays[at] = 1e12,
                None => {}
            }
            (inputs, delays, bad.map_or(Ok(()), |(done, refusal)| Err(Stopped { done, refusal })))
        })
        .collect()
}

fn bits(samples: &[f32]) -> Vec<u32> {
    samples.iter().map(|x| x.to_bits()).collect()
}

fn done(answer: Result<(), Stopped>) -> usize {
    answer.map_or_else(|stopped| stopped.done, |()| 200)
}

#[test]
fn sinc_strictly() {
    let open = || {
        let kernel = strict::WindowedSincF32::new(32, 16, 0.9, 8.0).expect("settings in range");
        strict::VariableDelayF32::new(50, 2, kernel).expect("settings in range")
    };
    let (mut stretch, mut telling, mut single) = (open(), open(), open());
    for (inputs, delays, right) in stretches() {
        let (mut out, mut told) = (vec![7.5; 200], vec![7.5; 200]);
        assert_eq!(stretch.process_stretch(&inputs, &delays, &mut out), right);
        let mut sums = Absent::default();
        for k in 0..done(right) {
            let (sample, absent) = single.process_sample_told(inputs[k], delays[k]);
            assert_eq!(out[k].to_bits(), sample.expect("accepted").to_bits(), "item {k}");
            sums += absent;
        }
        assert_eq!(telling.process_stretch_told(&inputs, &delays, &mut told), (right, sums));
        assert_eq!(bits(&told), bits(&out));
        assert!(out[done(right)..].iter().all(|&x| x == 7.5), "something behind the items done is written");
    }
    let unequal = Err(Stopped { done: 0, refusal: Refusal::Length });
    assert_eq!(stretch.process_stretch(&[0.0; 2], &[1.0; 2], &mut [0.0]), unequal);
    assert_eq!(stretch.process_stretch(&[], &[], &mut []), Ok(()));
}

#[test]
fn quality_strictly() {
    let bank = Arc::new(strict::SincBankF32::for_max_rate(1.0).expect("a rate in range"));
    for open in [strict::QualityVariableDelayF32::new, strict::QualityVariableDelayF32::new_returning] {
        let open = || open(50, 2, bank.clone(), QualityMode::Hq, 150).expect("settings in range");
        let (mut stretch, mut telling, mut single) = (open(), open(), open());
        let asked = [QualityMode::Hq, QualityMode::Draft, QualityMode::Draft, QualityMode::Hq, QualityMode::Ultra];
        for ((inputs, delays, right), quality) in stretches().into_iter().zip(asked) {
            let (mut out, mut told) = (vec![7.5; 200], vec![7.5; 200]);
            assert_eq!(stretch.process_stretch(&inputs, &delays, quality, 1.0, &mut out), right);
            let mut sums = Absent::default();
            for k in 0..done(right) {
                let (sample, absent) = single.process_sample_rate_aware_told(inputs[k], delays[k], quality, 1.0);
                assert_eq!(out[k].to_bits(), sample.expect("accepted").to_bits(), "item {k}");
                sums += absent;
            }
            assert_eq!(telling.process_stretch_told(&inputs, &delays, quality, 1.0, &mut told), (right, sums));
            assert_eq!(bits(&told), bits(&out));
            assert!(out[done(right)..].iter().all(|&x| x == 7.5), "something behind the items done is written");
        }
        let rate = Err(Stopped { done: 0, refusal: Refusal::Rate });
        assert_eq!(stretch.process_stretch(&[0.0], &[1.0], QualityMode::Draft, f64::NAN, &mut [0.0]), rate);
        assert_eq!(stretch.process_stretch(&[], &[], QualityMode::Draft, f64::NAN, &mut []), Ok(()));
    }
}

#[test]
fn leniently() {
    let (mut inputs, mut delays) = items(200);
    (inputs[3], delays[77]) = (f32::NAN, -1.0);
    let open = || VariableDelayF32::new(50, 2, WindowedSincF32::new(32, 16, 0.9, 8.0));
    let (mut stretch, mut single, mut out) = (open(), open(), vec![7.5; 200]);
    stretch.process_stretch(&inputs, &delays, &mut out);
    let mut sums = Absent::default();
    for k in 0..200 {
        let (right, absent) = single.process_sample_told(inputs[k], delays[k]);
        assert_eq!(out[k].to_bits(), right.to_bits(), "item {k}");
        sums += absent;
    }
    let mut told = vec![7.5; 200];
    assert_eq!(open().process_stretch_told(&inputs, &delays, &mut told), sums);
    assert_eq!(bits(&told), bits(&out));
    let bank = Arc::new(SincBankF32::for_max_rate(1.0));
    let open = || QualityVariableDelayF32::new(50, 2, bank.clone(), QualityMode::Hq, 150);
    let (mut stretch, mut single) = (open(), open());
    stretch.process_stretch(&inputs, &delays, QualityMode::Normal, 1.0, &mut out);
    let mut sums = Absent::default();
    for k in 0..200 {
        let (right, absent) = single.process_sample_rate_aware_told(inputs[k], delays[k], QualityMode::Normal, 1.0);
        assert_eq!(out[k].to_bits(), right.to_bits(), "item {k}");
        sums += absent;
    }
    assert_eq!(open().process_stretch_told(&inputs, &delays, QualityMode::Normal, 1.0, &mut told), sums);
    assert_eq!(bits(&told), bits(&out));
}
