//! Whole stretches beside single calls of the same readers: every output, what is done, and what comes after.

use fugnadri::{strict, Absent, CubicFarrow, Farrow8, Kernel, Lagrange, Refusal, Stopped, VariableDelay, WindowedSinc};

/// Samples and delays about a ring of 64, from a plain generator.
fn items(many: usize) -> (Vec<f64>, Vec<f64>) {
    let mut word = 0x9E37_79B9_7F4A_7C15u64;
    let mut unit = || {
        word ^= word << 13;
        word ^= word >> 7;
        word ^= word << 17;
        (word >> 11) as f64 / (1u64 << 53) as f64
    };
    (0..many).map(|_| (2.0 * unit() - 1.0, 80.0 * unit())).unzip()
}

fn bits(samples: &[f64]) -> Vec<u64> {
    samples.iter().map(|x| x.to_bits()).collect()
}

fn strictly<K: strict::Kernel>(make: impl Fn() -> K) {
    let open = || strict::VariableDelay::new(50, 2, make()).expect("settings in range");
    // more items than the ring has places, refused at the first, at one in between, at the last, and nowhere
    for bad in [Some((0, Refusal::Input)), Some((97, Refusal::Delay)), Some((199, Refusal::LongDelay)), None] {
        let (mut inputs, mut delays) = items(200);
        match bad {
            Some((at, Refusal::Input)) => inputs[at] = f64::INFINITY,
            Some((at, Refusal::Delay)) => delays[at] = -1.0,
            Some((at, _)) => delays[at] = 1e12,
            None => {}
        }
        let (mut stretch, mut single, mut out) = (open(), open(), vec![7.5; 200]);
        let answer = stretch.process_stretch(&inputs, &delays, &mut out);
        let done = bad.map_or(200, |(at, _)| at);
        assert_eq!(answer, bad.map_or(Ok(()), |(done, refusal)| Err(Stopped { done, refusal })));
        let mut sums = Absent::default();
        for k in 0..done {
            let (right, absent) = single.process_sample_told(inputs[k], delays[k]);
            assert_eq!(out[k].to_bits(), right.expect("accepted").to_bits(), "item {k}");
            sums += absent;
        }
        // the same stretch, telling the absent taps of its items done
        let (mut telling, mut told) = (open(), vec![7.5; 200]);
        assert_eq!(telling.process_stretch_told(&inputs, &delays, &mut told), (answer, sums));
        assert_eq!(bits(&told), bits(&out));
        assert!(out[done..].iter().all(|&x| x == 7.5), "something behind the items done is written");
        // the state and the ring are those of the single calls
        let (inputs, delays) = items(80);
        let mut after = vec![0.0; 80];
        assert_eq!(stretch.process_stretch(&inputs, &delays, &mut after), Ok(()));
        let right: Vec<f64> = inputs.iter().zip(&delays).map(|(&x, &d)| single.process_sample(x, d).expect("accepted")).collect();
        assert_eq!(bits(&after), bits(&right));
    }
}

#[test]
fn as_single_calls() {
    strictly(|| CubicFarrow);
    strictly(|| Farrow8);
    strictly(|| Lagrange::<2>);
    strictly(|| Lagrange::<16>);
    strictly(|| strict::WindowedSinc::new(32, 64, 0.9, 8.0).expect("settings in range"));
}

#[test]
fn before_the_first_item() {
    let mut reader = strict::VariableDelay::new(50, 2, CubicFarrow).expect("settings in range");
    let refused = |refusal| Err(Stopped { done: 0, refusal });
    let mut out = [7.5; 3];
    assert_eq!(reader.process_stretch(&[0.5; 2], &[1.0; 2], &mut out), refused(Refusal::Length));
    assert_eq!(reader.process_stretch(&[0.5; 3], &[1.0; 2], &mut out), refused(Refusal::Length));
    assert_eq!(out, [7.5; 3]);
    assert_eq!(reader.process_stretch(&[], &[], &mut []), Ok(()));
    let none = Absent::default();
    assert_eq!(reader.process_stretch_told(&[0.5; 2], &[1.0; 2], &mut out), (refused(Refusal::Length), none));
    assert_eq!(reader.process_stretch_told(&[], &[], &mut []), (Ok(()), none));
    // a bad setting comes before unequal lengths
    let mut odd = strict::VariableDelay::new(50, 2, Lagrange::<3>).expect("settings in range");
    assert_eq!(odd.process_stretch(&[0.5], &[], &mut out), refused(Refusal::Setting));
}

#[test]
fn cut_in_two() {
    let (inputs, delays) = items(150);
    let mut whole = strict::VariableDelay::new(50, 2, CubicFarrow).expect("settings in range");
    let mut parts = strict::VariableDelay::new(50, 2, CubicFarrow).expect("settings in range");
    let (mut out, mut cut) = (vec![0.0; 150], vec![0.0; 150]);
    whole.process_stretch(&inputs, &delays, &mut out).expect("accepted");
    for (from, to) in [(0, 61), (61, 61), (61, 150)] {
        parts.process_stretch(&inputs[from..to], &delays[from..to], &mut cut[from..to]).expect("accepted");
    }
    assert_eq!(bits(&out), bits(&cut));
}

fn leniently<K: Kernel>(make: impl Fn() -> K) {
    let (mut inputs, mut delays) = items(120);
    inputs[3] = f64::NAN;
    delays[4] = f64::NAN;
    delays[119] = -1.0;
    let (mut stretch, mut single) = (VariableDelay::new(50, 2, make()), VariableDelay::new(50, 2, make()));
    let mut out = vec![7.5; 120];
    stretch.process_stretch(&inputs, &delays, &mut out);
    let mut sums = Absent::default();
    let mut next = |x, d| {
        let (sample, absent) = single.process_sample_told(x, d);
        sums += absent;
        sample
    };
    let right: Vec<f64> = inputs.iter().zip(&delays).map(|(&x, &d)| next(x, d)).collect();
    assert_eq!(bits(&out), bits(&right));
    let mut telling = VariableDelay::new(50, 2, make());
    assert_eq!(telling.process_stretch_told(&inputs, &delays, &mut out), sums);
    assert_eq!(bits(&out), bits(&right));
}

#[test]
fn as_the_original_goes_on() {
    leniently(|| CubicFarrow);
    leniently(|| Farrow8);
    leniently(|| Lagrange::<8>);
    leniently(|| WindowedSinc::new(32, 64, 0.9, 8.0));
}
