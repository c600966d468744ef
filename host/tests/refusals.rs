//! Where a call is refused: the strict way says by which number, the lenient way answers 0.0 or panics as the original does.

use fugnadri::strict::{self, Refusal};
use fugnadri::{modulation, *};
use std::{panic::catch_unwind, panic::AssertUnwindSafe, sync::Arc};

/// What a panic says.
fn said<T>(call: impl FnOnce() -> T) -> String {
    let Err(payload) = catch_unwind(AssertUnwindSafe(call)) else { panic!("no panic") };
    *payload.downcast::<String>().expect("a text")
}

#[test]
fn each_says_its_number_and_what_to_do() {
    use Refusal::*;
    let all = [
        Setting, Length, State, Input, Delay, LongDelay, Rate, Full, NotWave, Overrun, NoFormat, NoData, Kind, Room,
        Sample, AllHeld, NotHeld, NoSizes, LargeSize, NotAiff, Sound, SoundRate,
    ];
    for (number, refusal) in (1..=22).zip(all) {
        assert_eq!(refusal.number(), number);
        assert!(refusal.to_string().starts_with(&format!("refused by {number}: ")));
    }
}

#[test]
fn samples_and_delays() {
    let mut strict = strict::VariableDelay::new(0, 0, CubicFarrow).unwrap();
    let mut lenient = VariableDelay::new(0, 0, CubicFarrow);
    for bad in [f64::NAN, f64::INFINITY, f64::NEG_INFINITY] {
        assert_eq!(strict.process_sample(bad, -1.0), Err(Refusal::Input));
        assert_eq!(strict.process_sample(1.0, bad), Err(Refusal::Delay));
        assert_eq!(lenient.process_sample(bad, 1.5).to_bits(), 0);
        assert_eq!(lenient.process_sample(1.0, bad).to_bits(), 0);
    }
    assert_eq!(strict.process_sample(1.0, -1.0), Err(Refusal::Delay));
    assert_eq!(strict.process_sample(1.0, 68_719_476_737.0), Err(Refusal::LongDelay));
    assert!(said(|| lenient.process_sample(1.0, 68_719_476_737.0)).starts_with("refused by 6: "));
    // none of them was an advance
    assert_eq!(strict.process_sample(1.0, 1.5), Ok(-0.0625));
    assert_eq!(lenient.process_sample(1.0, 1.5), -0.0625);
}

#[test]
fn taps_that_are_odd() {
    let mut reader = VariableDelay::new(0, 0, Lagrange::<3>);
    assert_eq!(reader.process_sample(f64::NAN, 1.0), 0.0); // as in the original, which asks for the taps afterwards
    assert!(said(|| reader.process_sample(1.0, 1.0)).starts_with("refused by 1: "));
    assert_eq!(strict::Kernel::sample(&Lagrange::<18>, &SliceSource(&[1.0]), 0.0), Err(Refusal::Setting));
}

#[test]
fn settings() {
    assert!(strict::VariableDelay::new((1 << 24) - 8, 0, CubicFarrow).is_ok());
    assert_eq!(strict::VariableDelay::new((1 << 24) - 7, 0, CubicFarrow).err(), Some(Refusal::Setting));
    assert_eq!(strict::VariableDelay::new(usize::MAX, usize::MAX, Farrow8).err(), Some(Refusal::Setting));
    assert_eq!(strict::WindowedSinc::new(5, 2, 1.0, 0.0).err(), Some(Refusal::Setting));
    assert_eq!(strict::WindowedSinc::new(usize::MAX, usize::MAX, 1.0, 0.0).err(), Some(Refusal::Setting));
    assert_eq!(strict::WindowedSincF32::for_max_rate(4, 2, 2.5, 1.0, 0.0).err(), Some(Refusal::Setting));
    assert_eq!(strict::SincBankF32::for_max_rate(0.5).err(), Some(Refusal::Setting));
    assert_eq!(strict::modulation::ModulationEngine::new(1.0, 1).err(), Some(Refusal::Setting));
    assert_eq!(strict::modulation::speed_delta(1201.0), Err(Refusal::Setting));
    assert!(said(|| WindowedSinc::new(4, 1, 1.0, 0.0)).starts_with("refused by 1: "));
    assert!(said(|| SincBankF32::for_max_rate(f64::NAN)).starts_with("refused by 1: "));
    assert!(said(|| modulation::ModulationEngine::new(f64::NAN, 1)).starts_with("refused by 1: "));
}

#[test]
fn a_sample_rate_that_the_original_leaves_aside() {
    let params = modulation::ModulationParams::default();
    let mut engine = modulation::ModulationEngine::new(48_000.0, 1);
    let mut other = modulation::ModulationEngine::new(48_000.0, 1);
    for rate in [f64::NAN, f64::INFINITY, 0.0, -1.0] {
        engine.set_sample_rate(rate);
    }
    assert_eq!(engine.next(params).left, other.next(params).left);
    assert!(said(|| engine.set_sample_rate(1.0)).starts_with("refused by 1: "));
}

#[test]
fn a_rate_that_is_no_number() {
    let bank = Arc::new(strict::SincBankF32::for_max_rate(1.0).unwrap());
    let mut reader = strict::QualityVariableDelayF32::new(0, 0, bank, QualityMode::Draft, 0).unwrap();
    assert_eq!(reader.process_sample_rate_aware(1.0, 1.5, QualityMode::Draft, f64::NAN), Err(Refusal::Rate));
    assert_eq!(reader.process_sample_rate_aware(1.0, 1.5, QualityMode::Draft, f64::INFINITY), Ok(-0.0625));
}
