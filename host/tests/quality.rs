//! A change of quality: a reader that changes mixes what two readers that do not change answer, over exactly the fade's length.

use fugnadri::QualityMode::{self, Draft, Hq, Normal};
use fugnadri::{strict, QualityVariableDelayF32, Refusal, SincBankF32};
use std::sync::Arc;

/// A reader that changes beside one for each quality that does not, all fed alike.
struct Beside {
    changing: QualityVariableDelayF32,
    plain: Vec<(QualityMode, QualityVariableDelayF32)>,
    fed: u32,
}

impl Beside {
    fn new(bank: &Arc<SincBankF32>, fade: u32) -> Self {
        Self::of(bank, QualityVariableDelayF32::new(100, 64, bank.clone(), Draft, fade))
    }

    fn of(bank: &Arc<SincBankF32>, changing: QualityVariableDelayF32) -> Self {
        let open = |quality| QualityVariableDelayF32::new(100, 64, bank.clone(), quality, 0);
        let plain = [Draft, Normal, Hq].map(|quality| (quality, open(quality))).into();
        Self { changing, plain, fed: 0 }
    }

    /// One call in which `asked` is asked for: the answer is `to`, or that mixed with `from` by `mix`.
    fn call(&mut self, asked: QualityMode, from: QualityMode, to: QualityMode, mix: Option<f32>) {
        let input = (self.fed * 37 % 101) as f32 / 101.0 - 0.5;
        let delay = 30.0 + f64::from(self.fed % 7) * 0.3;
        self.fed += 1;
        let found = self.changing.process_sample(input, delay, asked);
        let [mut a, mut b] = [f32::NAN; 2];
        for (quality, reader) in &mut self.plain {
            let sample = reader.process_sample(input, delay, *quality);
            if *quality == from {
                a = sample;
            }
            if *quality == to {
                b = sample;
            }
        }
        let expected = mix.map_or(b, |mix| a + (b - a) * mix);
        assert_eq!(found.to_bits(), expected.to_bits(), "call {}", self.fed);
    }
}

#[test]
fn fades() {
    let bank = Arc::new(SincBankF32::for_max_rate(1.0));
    let mut r = Beside::new(&bank, 4);
    (0..80).for_each(|_| r.call(Draft, Draft, Draft, None));
    // four mixed calls, then plain ones
    (1..=4u8).for_each(|k| r.call(Normal, Draft, Normal, Some(f32::from(k) / 4.0)));
    (0..3).for_each(|_| r.call(Normal, Normal, Normal, None));
    // a third quality during a fade starts again from the current one; asking for the current one jumps to it
    (1..=2u8).for_each(|k| r.call(Hq, Normal, Hq, Some(f32::from(k) / 4.0)));
    r.call(Draft, Normal, Draft, Some(0.25));
    r.call(Normal, Normal, Normal, None);
    // a refused call forgets the quality that it asked for
    assert_eq!(r.changing.process_sample(f32::NAN, 30.0, Hq), 0.0);
    assert_eq!(r.changing.process_sample(1.0, -1.0, Hq), 0.0);
    r.call(Normal, Normal, Normal, None);
}

#[test]
fn goes_back_without_a_jump() {
    let bank = Arc::new(SincBankF32::for_max_rate(1.0));
    let mut r = Beside::of(&bank, QualityVariableDelayF32::new_returning(100, 64, bank.clone(), Draft, 4));
    let mix = |k: u8| Some(f32::from(k) / 4.0);
    (0..80).for_each(|_| r.call(Draft, Draft, Draft, None));
    // up, down again from where it stands, up again
    (1..=3).for_each(|k| r.call(Normal, Draft, Normal, mix(k)));
    r.call(Draft, Draft, Normal, mix(2));
    assert_eq!(r.changing.process_sample(f32::NAN, 30.0, Normal), 0.0);
    r.call(Draft, Draft, Normal, mix(1));
    r.call(Normal, Draft, Normal, mix(2));
    // a third quality waits for the end of the fade that runs, then starts
    (3..=4).for_each(|k| r.call(Hq, Draft, Normal, mix(k)));
    (1..=2).for_each(|k| r.call(Hq, Normal, Hq, mix(k)));
    // back to the end: the current quality alone
    r.call(Normal, Normal, Hq, mix(1));
    (0..2).for_each(|_| r.call(Normal, Normal, Normal, None));
    // a reset makes the target current
    r.call(Hq, Normal, Hq, mix(1));
    r.changing.reset();
    r.plain.iter_mut().for_each(|(_, reader)| reader.reset());
    (0..60).for_each(|_| r.call(Hq, Hq, Hq, None));
    let opened = strict::QualityVariableDelayF32::new_returning(
        100,
        64,
        Arc::new(strict::SincBankF32::for_max_rate(1.0).unwrap()),
        Hq,
        16_777_217,
    );
    assert!(matches!(opened, Err(Refusal::Setting)));
}

#[test]
fn no_length_and_reset() {
    let bank = Arc::new(SincBankF32::for_max_rate(1.0));
    let mut r = Beside::new(&bank, 0);
    (0..60).for_each(|_| r.call(Draft, Draft, Draft, None));
    r.call(Hq, Hq, Hq, None);
    let mut r = Beside::new(&bank, 1000);
    (0..60).for_each(|_| r.call(Draft, Draft, Draft, None));
    r.call(Hq, Draft, Hq, Some(0.001));
    // the target becomes the current quality, and the ring is empty
    r.changing.reset();
    r.plain.iter_mut().for_each(|(_, reader)| reader.reset());
    (0..60).for_each(|_| r.call(Hq, Hq, Hq, None));
}

#[test]
fn rates() {
    let bank = Arc::new(strict::SincBankF32::for_max_rate(1.04).unwrap());
    let open = || strict::QualityVariableDelayF32::new(100, 64, bank.clone(), Normal, 0).unwrap();
    let (mut own, mut clamped, mut slow) = (open(), open(), open());
    let mut differs = 0;
    for n in 0..120u16 {
        let input = f32::from(n * 37 % 101) / 101.0 - 0.5;
        let at_most = own.process_sample(input, 30.3, Normal);
        assert_eq!(at_most, clamped.process_sample_rate_aware(input, 30.3, Normal, f64::INFINITY));
        differs += u32::from(at_most != slow.process_sample_rate_aware(input, 30.3, Normal, 1.0));
    }
    assert!(differs > 50);
}
