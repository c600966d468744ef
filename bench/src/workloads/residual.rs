//! W13. The residual: 20,000 samples of 24 bits beside others, in five calls from an empty report on. An answer is a
//! sample. The Rust is a plain loop with the same tests of a value and of the lengths, and a u128 sum.

use crate::random::Random;
use crate::{Side, Workload};
use boundary::ReportWords;

/// By name: making one may take seconds.
pub const WORKLOADS: &[(&str, fn() -> Workload)] = &[
    ("residual", workload),
];

const SAMPLES: usize = 20000;
const CALL: usize = 4000;

#[derive(Clone, Copy, Default)]
struct Report {
    number: u64,
    largest: i64,
    place: Option<u64>,
    sum: u128,
}

#[inline(never)]
fn rust(report: &mut Report, a: &[i32], b: &[i32]) -> bool {
    if a.len() != b.len() {
        return false;
    }
    let Report { number, mut largest, mut place, mut sum } = *report;
    for (i, (&x, &y)) in a.iter().zip(b).enumerate() {
        if !(-(1 << 23)..1 << 23).contains(&x) || !(-(1 << 23)..1 << 23).contains(&y) {
            return false;
        }
        let d = (i64::from(x) - i64::from(y)).abs();
        if d > largest || place.is_none() {
            (largest, place) = (d, Some(number + i as u64));
        }
        sum += (d * d) as u128;
    }
    *report = Report { number: number + a.len() as u64, largest, place, sum };
    true
}

/// A pass: the report's numbers behind the last call. The other answers are zeros, written once.
fn pass(stretches: &[Vec<i32>; 2], compare: impl Fn(&[Vec<i32>; 2]) -> [u64; 5] + 'static) -> Side {
    let stretches = stretches.clone();
    let mut begun = false;
    Box::new(move |answers| {
        if !begun {
            answers.fill(0);
            begun = true;
        }
        answers[..5].copy_from_slice(&compare(&stretches));
    })
}

fn calls(stretches: &[Vec<i32>; 2], mut call: impl FnMut(&[i32], &[i32])) {
    for (a, b) in stretches[0].chunks(CALL).zip(stretches[1].chunks(CALL)) {
        call(a, b);
    }
}

pub fn workload() -> Workload {
    let mut random = Random::new(1);
    let mut stretch = || (0..SAMPLES).map(|_| random.within(-(1 << 23), (1 << 23) - 1) as i32).collect::<Vec<i32>>();
    let stretches = [stretch(), stretch()];
    Workload {
        answers: SAMPLES,
        rust: pass(&stretches, |stretches| {
            let mut r = Report::default();
            calls(stretches, |a, b| assert!(rust(&mut r, a, b)));
            [r.number, r.largest as u64, r.place.unwrap_or(u64::MAX), (r.sum >> 64) as u64, r.sum as u64]
        }),
        port: pass(&stretches, |stretches| {
            let mut r = ReportWords::default();
            calls(stretches, |a, b| assert_eq!(boundary::residual_compare(&mut r, a, b), 0));
            [r.number, r.largest.into(), r.place, r.high, r.low]
        }),
    }
}
