//! Damage that ages out (Wish 8), through every reader: of two runs of the same calls the second has three wrong samples, and each has refused
//! calls of its own. Where the held taps avoid the wrong samples the bits are the same, and at every call from a ring's length after the last on.

use fugnadri::strict::{
    CubicFarrow, Farrow8, Kernel, Lagrange, QualityMode, QualityVariableDelayF32, SincBankF32, VariableDelay,
    VariableDelayF32, WindowedSinc, WindowedSincF32,
};
use fugnadri::Refusal;
use std::sync::Arc;

/// Call number i of a run: the bits of its answer.
trait Reader {
    fn call(&mut self, i: i64, input: f64, delay: f64) -> Result<u64, Refusal>;
    fn reset(&mut self);
}

impl<K: Kernel> Reader for VariableDelay<K> {
    fn call(&mut self, _: i64, input: f64, delay: f64) -> Result<u64, Refusal> {
        self.process_sample(input, delay).map(f64::to_bits)
    }
    fn reset(&mut self) {
        self.reset();
    }
}

impl Reader for VariableDelayF32<WindowedSincF32> {
    fn call(&mut self, _: i64, input: f64, delay: f64) -> Result<u64, Refusal> {
        self.process_sample(input as f32, delay).map(|sample| sample.to_bits().into())
    }
    fn reset(&mut self) {
        self.reset();
    }
}

impl Reader for QualityVariableDelayF32 {
    fn call(&mut self, i: i64, input: f64, delay: f64) -> Result<u64, Refusal> {
        let [fast, slow] = [i / 9 % 2, i / 70 % 3].map(|k| k as usize);
        let asked = [[QualityMode::Draft, QualityMode::Hq, QualityMode::Normal][slow], QualityMode::Ultra][fast];
        let rate = 1.0 + (i % 11) as f64 / 8.0;
        self.process_sample_rate_aware(input as f32, delay, asked, rate).map(|sample| sample.to_bits().into())
    }
    fn reset(&mut self) {
        self.reset();
    }
}

/// A reader of at most `taps` taps over a ring of a length.
fn ages_out<R: Reader>(name: &str, taps: i64, ring: i64, open: impl Fn() -> R) {
    let mut runs = [open(), open()];
    let sample = |i: i64| (i * 37 % 101) as f64 / 101.0 - 0.5;
    let wrong = [(ring + 3, f64::from(f32::MAX)), (ring + 4, -0.0), (ring + 40, 3.0)];
    let last = wrong[2].0;
    // calls that avoid a wrong sample which is still held, and calls whose answers differ
    let [mut avoided, mut differed] = [0; 2];
    for i in 0..last + 3 * ring {
        if i % 5 == 0 {
            assert_eq!(runs[0].call(i, f64::NAN, 1.0), Err(Refusal::Input));
        }
        if i % 7 == 3 {
            assert_eq!(runs[1].call(i, 9.0, -1.0), Err(Refusal::Delay));
        }
        // the last call that can differ reads at the oldest sample that is held, which is the last wrong one
        let delay = if i == last + ring - 1 { (ring - 1) as f64 } else { (i * 31 % (5 * ring)) as f64 / 4.0 };
        let damaged = wrong.iter().find(|(k, _)| *k == i).map_or(sample(i), |(_, value)| *value);
        let [one, other] = [sample(i), damaged];
        let answers = [runs[0].call(i, one, delay).unwrap(), runs[1].call(i, other, delay).unwrap()];
        let first = (i as f64 - delay).floor() as i64 - (taps / 2 - 1);
        let mut held = wrong.iter().filter(|(k, _)| (i - ring + 1..=i).contains(k)).peekable();
        let any = held.peek().is_some();
        let read = held.any(|(k, _)| (first..first + taps).contains(k));
        assert!(read || answers[0] == answers[1], "{name}, call {i}, avoids them");
        assert!(i < last + ring || answers[0] == answers[1], "{name}, call {i}, is late enough");
        assert!(i != last + ring - 1 || answers[0] != answers[1], "{name}, call {i}, is one too early");
        avoided += i32::from(any && !read);
        differed += i32::from(answers[0] != answers[1]);
    }
    assert!(avoided > 1 && differed > 1, "{name}: {avoided} avoid them, {differed} differ");

    // a reset ends it at once
    assert_ne!(runs[0].call(0, 1.0, 0.0), runs[1].call(0, 2.0, 0.0), "{name}");
    runs.iter_mut().for_each(R::reset);
    for i in 0..2 * ring {
        let [one, other] = &mut runs;
        let delay = (i % ring) as f64 / 2.0;
        assert_eq!(one.call(i, sample(i), delay), other.call(i, sample(i), delay), "{name}, call {i} after a reset");
    }
}

#[test]
fn constant_kernels() {
    ages_out("cubic", 4, 8, || VariableDelay::new(0, 0, CubicFarrow).unwrap());
    ages_out("cubic", 4, 128, || VariableDelay::new(56, 32, CubicFarrow).unwrap());
    ages_out("farrow 8", 8, 128, || VariableDelay::new(56, 32, Farrow8).unwrap());
    ages_out("lagrange 2", 2, 128, || VariableDelay::new(56, 32, Lagrange::<2>).unwrap());
    ages_out("lagrange 6", 6, 128, || VariableDelay::new(56, 32, Lagrange::<6>).unwrap());
    ages_out("lagrange 16", 16, 128, || VariableDelay::new(56, 32, Lagrange::<16>).unwrap());
}

#[test]
fn tables() {
    let double = || WindowedSinc::new(32, 64, 0.9, 9.0).unwrap();
    let single = || WindowedSincF32::new(32, 64, 0.9, 9.0).unwrap();
    ages_out("sinc", 32, 128, || VariableDelay::new(56, 32, double()).unwrap());
    ages_out("sinc f32", 32, 128, || VariableDelayF32::new(56, 32, single()).unwrap());
}

/// No quality reads more than 128 taps, and those of the others are among them.
#[test]
fn qualities_by_either_rule() {
    let bank = Arc::new(SincBankF32::for_max_rate(2.0).unwrap());
    let ported = || QualityVariableDelayF32::new(300, 64, bank.clone(), QualityMode::Draft, 6).unwrap();
    let returning = || QualityVariableDelayF32::new_returning(300, 64, bank.clone(), QualityMode::Draft, 6).unwrap();
    ages_out("qualities, ported", 128, 512, ported);
    ages_out("qualities, returning", 128, 512, returning);
}
