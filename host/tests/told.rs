//! Which taps were missing (Wish 7), in both ways: the worked figures, the sums of a fade and of a blend, refused calls;
//! and every told call beside the same call of a reader that does not tell.

use fugnadri::{lenient, strict, Absent, Refusal};
use fugnadri::{CubicFarrow, Farrow8, Lagrange, QualityMode};
use std::sync::Arc;

fn absent(unwritten: u64, ahead: u64, overwritten: u64) -> Absent {
    Absent { unwritten, ahead, overwritten }
}

/// What the call numbered i, from 0, of a ring of 8 tells: the inputs are 1, 2, 3 and so on.
fn cubic(i: u32, delay: f64) -> (f64, Absent) {
    let mut reader = lenient::VariableDelay::new(0, 0, CubicFarrow);
    for k in 0..i {
        reader.process_sample(f64::from(k + 1), delay);
    }
    reader.process_sample_told(f64::from(i + 1), delay)
}

#[test]
fn worked_figures() {
    assert_eq!(cubic(0, 1.5), (-0.0625, absent(3, 0, 0))); // P2
    assert_eq!(cubic(3, 0.5), (3.8125, absent(0, 1, 0))); // P4
    assert_eq!(cubic(8, 7.0), (2.0, absent(0, 0, 1))); // P5
    assert_eq!(cubic(8, 8.0), (0.0, absent(1, 0, 1))); // P6
    assert_eq!(cubic(0, 1e-300).1, absent(2, 1, 0));
    assert_eq!(cubic(0, 68_719_476_736.0).1, absent(4, 0, 0));
    // 128 taps in a ring of 8
    let kernel = strict::WindowedSinc::new(128, 2, 1.0, 12.0).unwrap();
    let mut reader = strict::VariableDelay::new(0, 0, kernel).unwrap();
    for i in 0..100 {
        let (sample, told) = reader.process_sample_told(1.0, 0.0);
        assert!(sample.is_ok());
        match i {
            7 => assert_eq!(told, absent(56, 64, 0)),
            62 => assert_eq!(told, absent(1, 64, 55)),
            63.. => assert_eq!(told, absent(0, 64, 56)),
            _ => assert_eq!(told.unwritten + told.ahead + told.overwritten, 128 - (i + 1).min(8)),
        }
    }
}

#[test]
fn refused_calls_tell_zeros() {
    let mut reader = strict::VariableDelay::new(0, 0, CubicFarrow).unwrap();
    assert_eq!(reader.process_sample_told(1.0, 1.5), (Ok(-0.0625), absent(3, 0, 0)));
    for (input, delay, refusal) in
        [(f64::NAN, 1.5, Refusal::Input), (1.0, -1.0, Refusal::Delay), (1.0, 68_719_476_737.0, Refusal::LongDelay)]
    {
        assert_eq!(reader.process_sample_told(input, delay), (Err(refusal), Absent::default()));
    }
    // and no count goes on from an earlier call
    assert_eq!(reader.process_sample_told(2.0, 1.5), (Ok(0.4375), absent(2, 0, 0)));
    let mut silent = lenient::VariableDelay::new(0, 0, CubicFarrow);
    assert_eq!(silent.process_sample_told(f64::NAN, 1.5), (0.0, Absent::default()));
    let mut odd = strict::VariableDelay::new(0, 0, Lagrange::<3>).unwrap();
    assert_eq!(odd.process_sample_told(1.0, 1.5), (Err(Refusal::Setting), Absent::default()));
}

/// Two readers over a ring of 32, fed alike, one of which tells: the same samples, and the absent taps of a kernel of so
/// many, tap by tap.
macro_rules! beside {
    ($taps:literal, $float:ty, $open:expr) => {{
        let (mut plain, mut told) = ($open, $open);
        for i in 0..200i64 {
            let (input, delay) = ((i * 37 % 101) as $float / 101.0 - 0.5, (i * 29 % 211) as f64 * 0.3);
            let (sample, absent) = told.process_sample_told(input, delay);
            assert_eq!(sample, plain.process_sample(input, delay), "call {i}");
            let first = (i as f64 - delay).floor() as i64 - ($taps / 2 - 1);
            let mut right = Absent::default();
            for tap in first..first + $taps {
                right.unwritten += (tap < 0) as u64;
                right.ahead += (tap > i) as u64;
                right.overwritten += (tap >= 0 && i - tap >= 32) as u64;
            }
            assert_eq!(absent, right, "call {i} of {} taps", $taps);
        }
    }};
}

#[test]
fn every_kernel() {
    beside!(4, f64, strict::VariableDelay::new(8, 4, CubicFarrow).unwrap());
    beside!(8, f64, strict::VariableDelay::new(8, 4, Farrow8).unwrap());
    beside!(2, f64, strict::VariableDelay::new(8, 4, Lagrange::<2>).unwrap());
    beside!(16, f64, lenient::VariableDelay::new(8, 4, Lagrange::<16>));
    beside!(8, f64, lenient::VariableDelay::new(8, 4, Farrow8));
    beside!(32, f64, lenient::VariableDelay::new(8, 4, lenient::WindowedSinc::new(32, 4, 0.9, 12.0)));
    beside!(32, f32, lenient::VariableDelayF32::new(8, 4, lenient::WindowedSincF32::new(32, 4, 0.9, 12.0)));
    let table = || strict::WindowedSincF32::new(96, 4, 0.9, 12.0).unwrap();
    beside!(96, f32, strict::VariableDelayF32::new(8, 4, table()).unwrap());
}

/// The absent taps of a reader's first call at delay 0: of so many only the newest sample is there.
fn first(taps: u64) -> Absent {
    absent(taps / 2 - 1, taps / 2, 0)
}

fn plus(a: Absent, b: Absent) -> Absent {
    absent(a.unwritten + b.unwritten, a.ahead + b.ahead, a.overwritten + b.overwritten)
}

#[test]
fn every_reading_is_added() {
    use QualityMode::{Draft, Hq, Normal, Ultra};
    let bank = Arc::new(strict::SincBankF32::for_max_rate(1.04).unwrap());
    let open = |quality, fade| strict::QualityVariableDelayF32::new(100, 64, bank.clone(), quality, fade).unwrap();
    let tells = |quality, asked, rate| {
        let (sample, told) = open(quality, 4).process_sample_rate_aware_told(1.0, 0.0, asked, rate);
        assert!(sample.is_ok());
        told
    };
    let mut sets = [0; 2];
    for rate in (0..40u8).map(|n| 1.0 + f64::from(n) / 1000.0) {
        // Draft reads four taps once; another quality its table's, in one set or in both of a blend
        assert_eq!(tells(Draft, Draft, rate), first(4));
        let both = tells(Hq, Hq, rate) != first(96);
        sets[usize::from(both)] += 1;
        for (quality, taps) in [(Normal, 80), (Hq, 96), (Ultra, 128)] {
            let one = first(taps);
            assert_eq!(tells(quality, quality, rate), if both { plus(one, one) } else { one });
        }
        // both qualities of a mixed call
        for (from, to) in [(Draft, Hq), (Ultra, Normal), (Hq, Draft)] {
            assert_eq!(tells(from, to, rate), plus(tells(from, from, rate), tells(to, to, rate)));
        }
    }
    assert!(sets[0] > 0 && sets[1] > 0, "{sets:?}");
}

#[test]
fn the_quality_readers_own_samples() {
    use QualityMode::{Draft, Hq, Normal};
    let bank = Arc::new(strict::SincBankF32::for_max_rate(1.04).unwrap());
    let open = || strict::QualityVariableDelayF32::new(100, 64, bank.clone(), Normal, 3).unwrap();
    let (mut plain, mut told, mut at_most) = (open(), open(), open());
    for i in 0..40u8 {
        let (input, delay) = (f32::from(i) / 40.0, f64::from(i % 7) * 0.3);
        let asked = [Normal, Hq][usize::from(i / 8 % 2)];
        let (sample, absent) = told.process_sample_told(input, delay, asked);
        assert_eq!(sample, plain.process_sample(input, delay, asked));
        assert_eq!((sample, absent), at_most.process_sample_rate_aware_told(input, delay, asked, 1.04));
    }
    let refused = told.process_sample_rate_aware_told(1.0, 0.0, Draft, f64::NAN);
    assert_eq!(refused, (Err(Refusal::Rate), Absent::default()));
    let bank = Arc::new(lenient::SincBankF32::for_max_rate(1.0));
    let mut reader = lenient::QualityVariableDelayF32::new(100, 64, bank, Hq, 0);
    assert_eq!(reader.process_sample_told(f32::NAN, 0.0, Hq), (0.0, Absent::default()));
    assert_eq!(reader.process_sample_rate_aware_told(1.0, 0.0, Hq, 1.0).1, first(96));
}
