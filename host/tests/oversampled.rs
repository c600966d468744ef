//! The oversampled readers (Wish 11): what passes through, what a refusal and a reset leave, which settings there are.

use fugnadri::{
    strict, Absent, CascadedOversampledVariableDelay4x, CubicFarrow, Farrow8, Lagrange, OversampledVariableDelay,
    Refusal, WindowedSinc,
};

/// A steady input comes out as it went in, once the filters and the ring are full.
fn passes(mut process: impl FnMut(f64, f64) -> f64) {
    let last = (0..600).map(|_| process(0.5, 20.25)).last().unwrap();
    assert!((last - 0.5).abs() < 1e-3, "{last}");
}

#[test]
fn a_steady_input_passes() {
    let mut two = OversampledVariableDelay::<_, 2>::new(64, 16, 65, CubicFarrow);
    let mut four = OversampledVariableDelay::<_, 4>::new(64, 16, 129, Lagrange::<6>);
    let mut eight = CascadedOversampledVariableDelay4x::new(64, 16, Farrow8);
    passes(|x, d| two.process_sample(x, d));
    passes(|x, d| four.process_sample(x, d));
    passes(|x, d| eight.process_sample(x, d));
}

#[test]
fn a_steady_input_passes_the_windowed_sinc() {
    let mut two = OversampledVariableDelay::<_, 2>::new(64, 32, 65, WindowedSinc::new(32, 64, 0.9, 8.0));
    let mut four = CascadedOversampledVariableDelay4x::new(64, 32, WindowedSinc::new(32, 64, 0.9, 8.0));
    passes(|x, d| two.process_sample(x, d));
    passes(|x, d| four.process_sample(x, d));
}

#[test]
fn the_latency_is_that_of_the_filters() {
    assert_eq!(OversampledVariableDelay::<_, 2>::new(64, 16, 65, CubicFarrow).latency_samples(), 32.0);
    assert_eq!(OversampledVariableDelay::<_, 4>::new(64, 16, 65, CubicFarrow).latency_samples(), 16.0);
    assert_eq!(CascadedOversampledVariableDelay4x::new(64, 16, CubicFarrow).latency_samples(), 64.0);
}

/// W11c. A refused call leaves no trace: the samples behind it are those without it.
#[test]
fn a_refused_call_leaves_no_trace() {
    let open = || strict::OversampledVariableDelay::<_, 4>::new(100, 16, 33, Farrow8).unwrap();
    let (mut plain, mut tried) = (open(), open());
    for k in 0..500 {
        let (input, delay) = ((k * k % 17) as f64 / 17.0, 30.0 + (k % 50) as f64 / 10.0);
        assert_eq!(tried.process_sample(f64::NAN, delay), Err(Refusal::Input));
        assert_eq!(tried.process_sample(input, -1.0), Err(Refusal::Delay));
        assert_eq!(tried.process_sample(input, 17_179_869_185.0), Err(Refusal::LongDelay));
        assert_eq!(plain.process_sample(input, delay), tried.process_sample(input, delay));
    }
}

#[test]
fn a_reset_reader_is_a_new_one() {
    let mut reader = CascadedOversampledVariableDelay4x::new(100, 16, CubicFarrow);
    let run = |r: &mut CascadedOversampledVariableDelay4x<CubicFarrow>| -> Vec<u64> {
        (0..300).map(|k| r.process_sample((k % 9) as f64 / 9.0, 10.0 + k as f64 / 8.0).to_bits()).collect()
    };
    let first = run(&mut reader);
    reader.reset();
    assert_eq!(run(&mut reader), first);
}

/// W11b. Factors 2 and 4, odd taps from 17 to 129; 01's sum at the higher rate.
#[test]
fn settings_out_of_range_are_refused() {
    fn two(maximum: usize, margin: usize, taps: usize) -> Option<Refusal> {
        strict::OversampledVariableDelay::<_, 2>::new(maximum, margin, taps, CubicFarrow).err()
    }
    for taps in [0, 15, 16, 18, 128, 130, 131, usize::MAX] {
        assert_eq!(two(100, 16, taps), Some(Refusal::Setting));
    }
    assert_eq!((two(100, 16, 17), two(100, 16, 129)), (None, None));
    assert_eq!((two((1 << 23) - 4, 0, 17), two((1 << 23) - 3, 0, 17)), (None, Some(Refusal::Setting)));
    assert_eq!(two(usize::MAX, 16, 17), Some(Refusal::Setting));
    assert_eq!(strict::OversampledVariableDelay::<_, 3>::new(100, 16, 33, CubicFarrow).err(), Some(Refusal::Setting));
    assert_eq!(strict::CascadedOversampledVariableDelay4x::new(1 << 22, 0, CubicFarrow).err(), Some(Refusal::Setting));
}

/// W11f. Of the first call at a delay of 1 the cubic reads, at twice the rate, 2 and then 1 before its newest sample.
#[test]
fn the_inner_readings_absent_taps_are_added_up() {
    let absent = |unwritten, ahead, overwritten| Absent { unwritten, ahead, overwritten };
    let mut two = OversampledVariableDelay::<_, 2>::new(64, 16, 65, CubicFarrow);
    // inner delay 2 behind samples 0 and 1: taps -3 to 0 and -2 to 1
    assert_eq!(two.process_sample_told(0.5, 1.0).1, absent(3 + 2, 0, 0));
    // inner samples 2 and 3: taps -1 to 2 and 0 to 3
    assert_eq!(two.process_sample_told(0.5, 1.0).1, absent(1, 0, 0));
    assert_eq!(two.process_sample_told(0.5, 1.0).1, absent(0, 0, 0));
    // from 1 on to 0: inner delays 1 and 0, behind samples 6 and 7: taps 4 to 7 and 6 to 9
    assert_eq!(two.process_sample_told(0.5, 0.0).1, absent(0, 1 + 2, 0));
    let mut four = CascadedOversampledVariableDelay4x::new(64, 16, CubicFarrow);
    // inner delay 4 behind samples 0 to 3: four taps below 0 at first, then four, three and two
    assert_eq!(four.process_sample_told(0.5, 1.0).1, absent(4 + 4 + 3 + 2, 0, 0));
    // a ring of 8 places, of which the taps behind sample 80 at an inner delay of 40 are long gone
    let mut long = OversampledVariableDelay::<_, 2>::new(0, 0, 17, CubicFarrow);
    (0..40).for_each(|_| assert!(long.process_sample(0.5, 0.0).is_finite()));
    assert_eq!(long.process_sample_told(0.5, 20.0).1.unwritten, 0);
    assert_eq!(long.process_sample_told(0.5, 20.0).1, absent(0, 0, 8));
}

/// W11f. A told call is the call itself; a refused one tells zeros, and an overflowed inner sample adds none.
#[test]
fn a_told_call_is_the_call_itself() {
    let open = || strict::CascadedOversampledVariableDelay4x::new(100, 16, Farrow8).unwrap();
    let (mut plain, mut told) = (open(), open());
    for k in 0..400 {
        let loud = if k % 50 < 3 { f64::MAX } else { 1.0 };
        let (input, delay) = (loud * (1.0 - 2.0 * (k % 2) as f64), 30.0 + (k % 50) as f64 / 10.0);
        assert_eq!(told.process_sample_told(f64::NAN, delay), (Err(Refusal::Input), Absent::default()));
        let (right, (answer, absent)) = (plain.process_sample(input, delay), told.process_sample_told(input, delay));
        assert_eq!(right.map(f64::to_bits), answer.map(f64::to_bits));
        assert!(absent.unwritten + absent.ahead + absent.overwritten <= 32);
    }
}
