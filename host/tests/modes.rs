//! The modes of the sum called I0: a table and a bank name theirs; the ported mode is the original's, and the full one
//! differs from it where 24 terms do not reach I0.

use fugnadri::strict::{self, Refusal};
use fugnadri::{Kernel, KernelF32, Mode, QualityMode, SampleSourceF32, SincBankF32, SliceSource};
use fugnadri::{QualityVariableDelayF32, WindowedSinc, WindowedSincF32};
use std::sync::Arc;

const TAPS: usize = 32;
const PHASES: usize = 16;

struct One;

impl SampleSourceF32 for One {
    fn at_f32(&self, index: i64) -> f32 {
        f32::from(u8::from(index == 40))
    }
}

/// The table's numbers: at the place of each phase beside a single 1.0 a reading is one of them.
fn numbers(table: &WindowedSinc) -> Vec<u64> {
    let one: Vec<f64> = (0..80).map(|n| f64::from(u8::from(n == 40))).collect();
    let at = |n: usize| 24.0 + n as f64 / PHASES as f64;
    (0..TAPS * PHASES).map(|n| table.sample(&SliceSource(&one), at(n)).to_bits()).collect()
}

fn numbers_f32(table: &WindowedSincF32) -> Vec<u32> {
    let at = |n: usize| 24.0 + n as f64 / PHASES as f64;
    (0..TAPS * PHASES).map(|n| table.sample_f32(&One, at(n)).to_bits()).collect()
}

#[test]
fn ported_is_the_original_and_full_is_another() {
    for (beta, differ) in [(5.0, false), (10.0, false), (16.0, true), (20.0, true)] {
        let plain = numbers(&WindowedSinc::new(TAPS, PHASES, 0.9, beta));
        let table = |mode| WindowedSinc::new_in(TAPS, PHASES, 0.9, beta, mode);
        assert_eq!(plain, numbers(&table(Mode::Ported)), "beta {beta}");
        assert_eq!(plain != numbers(&table(Mode::Full)), differ, "beta {beta}");
        let rated = |mode| WindowedSinc::for_max_rate_in(TAPS, PHASES, 1.0, 0.9, beta, mode);
        assert_eq!(numbers(&table(Mode::Full)), numbers(&rated(Mode::Full)), "beta {beta}");
        assert_eq!(plain, numbers(&rated(Mode::Ported)), "beta {beta}");
        assert_eq!([table(Mode::Full).mode(), rated(Mode::Full).mode()], [Mode::Full; 2]);
    }
}

#[test]
fn the_same_in_f32() {
    // rounding to f32 hides what the modes differ by, but for a beta near 20
    for (beta, differ) in [(5.0, false), (10.0, false), (20.0, true)] {
        let plain = numbers_f32(&WindowedSincF32::new(TAPS, PHASES, 0.9, beta));
        let table = |mode| WindowedSincF32::new_in(TAPS, PHASES, 0.9, beta, mode);
        let rated = |mode| WindowedSincF32::for_max_rate_in(TAPS, PHASES, 1.0, 0.9, beta, mode);
        assert_eq!(plain, numbers_f32(&table(Mode::Ported)), "beta {beta}");
        assert_eq!(plain, numbers_f32(&rated(Mode::Ported)), "beta {beta}");
        assert_eq!(plain != numbers_f32(&table(Mode::Full)), differ, "beta {beta}");
        assert_eq!(numbers_f32(&table(Mode::Full)), numbers_f32(&rated(Mode::Full)), "beta {beta}");
        assert_eq!([table(Mode::Full).mode(), rated(Mode::Full).mode()], [Mode::Full; 2]);
    }
}

#[test]
fn what_is_made_names_its_mode() {
    assert_eq!(Mode::default(), Mode::Ported);
    assert_eq!([Mode::Ported as u8, Mode::Full as u8], [0, 1]);
    assert_eq!(strict::WindowedSinc::new(4, 2, 1.0, 0.0).unwrap().mode(), Mode::Ported);
    assert_eq!(strict::WindowedSinc::for_max_rate(4, 2, 1.0, 1.0, 0.0).unwrap().mode(), Mode::Ported);
    assert_eq!(strict::WindowedSincF32::new(4, 2, 1.0, 0.0).unwrap().mode(), Mode::Ported);
    assert_eq!(strict::WindowedSincF32::for_max_rate_in(4, 2, 1.0, 1.0, 0.0, Mode::Full).unwrap().mode(), Mode::Full);
    assert_eq!(SincBankF32::for_max_rate(1.0).mode(), Mode::Ported);
    assert_eq!(SincBankF32::for_max_rate_in(1.0, Mode::Full).mode(), Mode::Full);
}

#[test]
fn settings_are_refused_in_either_mode() {
    for mode in [Mode::Ported, Mode::Full] {
        assert_eq!(strict::WindowedSinc::new_in(5, 2, 1.0, 0.0, mode).err(), Some(Refusal::Setting));
        assert_eq!(strict::WindowedSinc::new_in(4, 2, 1.0, 20.5, mode).err(), Some(Refusal::Setting));
        assert_eq!(strict::WindowedSincF32::for_max_rate_in(4, 2, 2.5, 1.0, 0.0, mode).err(), Some(Refusal::Setting));
        assert_eq!(strict::SincBankF32::for_max_rate_in(0.5, mode).err(), Some(Refusal::Setting));
    }
}

#[test]
fn a_reader_takes_a_bank_of_either_mode() {
    let bank = |mode| Arc::new(SincBankF32::for_max_rate_in(1.0, mode));
    let open = |bank| QualityVariableDelayF32::new(100, 64, bank, QualityMode::Ultra, 0);
    let mut plain = open(Arc::new(SincBankF32::for_max_rate(1.0)));
    let (mut ported, mut full) = (open(bank(Mode::Ported)), open(bank(Mode::Full)));
    for n in 0..200u16 {
        let input = f32::from(n * 37 % 101) / 101.0 - 0.5;
        let answer = plain.process_sample(input, 30.3, QualityMode::Ultra);
        assert_eq!(answer.to_bits(), ported.process_sample(input, 30.3, QualityMode::Ultra).to_bits());
        assert!((answer - full.process_sample(input, 30.3, QualityMode::Ultra)).abs() < 1.0e-6);
    }
}
