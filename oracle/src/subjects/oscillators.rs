//! What stands outside 001's engine, beside the original's: `speed_delta`, `advance_phase`,
//! `shape_primitive`, `oscillator_delay` and the two maxima. Outside 01's ranges the port alone is
//! asked, and must refuse by 1 with the value 0.0: these inputs are the telling ones.

use crate::context::Context;
use crate::format::BINARY64;
use crate::pair::Pair;
use crate::random::Random;
use crate::shape::{bits64, f64_of, Shape};
use std::f64::consts::TAU;
use wow_dsp::modulation;

/// How many inputs of each kind a round draws.
const BATCH: u64 = 1 << 13;

/// 01's range of an argument, both ends included; a NaN lies in none.
struct Range {
    low: f64,
    high: f64,
}

const DEPTH: Range = Range { low: -1200.0, high: 1200.0 };
const RATE: Range = Range { low: -1000.0, high: 1000.0 };
const SAMPLE_RATE: Range = Range { low: 8000.0, high: 768000.0 };
const MINIMUM_RATE: Range = Range { low: 0.001, high: 1000.0 };
const PHASE: Range = Range { low: -51.0, high: 51.0 };
/// An engine's phase lies below TAU.
const CYCLE: Range = Range { low: 0.0, high: f64::from_bits(TAU.to_bits() - 1) };
/// 001 clamps a shape: any number will do.
const SHAPE: Range = Range { low: -f64::MAX, high: f64::MAX };

impl Range {
    fn holds(&self, x: f64) -> bool {
        self.low <= x && x <= self.high
    }

    /// The ends and what lies beside each, zeros, the smallest numbers, and what is no number.
    fn edges(&self) -> [f64; 14] {
        let (low, high) = (self.low, self.high);
        let ends = [low.next_down(), low, low.next_up(), high.next_down(), high, high.next_up()];
        let zeros = [0.0, -0.0, 5e-324, -5e-324, f64::MIN_POSITIVE];
        let none = [f64::NAN, f64::INFINITY, f64::NEG_INFINITY];
        std::array::from_fn(|i| match i {
            0..=5 => ends[i],
            6..=10 => zeros[i - 6],
            _ => none[i - 11],
        })
    }
}

impl Random {
    /// An edge that is in range, anywhere in it, or near 0 or the lower end.
    fn inside(&mut self, range: &Range) -> u64 {
        let share = self.unit();
        let x = match self.within(0, 3) {
            0 => self.pick(&range.edges()),
            1 => share * 0.5f64.powi(self.within(0, 60) as i32) * range.high,
            2 => -share * 0.5f64.powi(self.within(0, 60) as i32) * range.high,
            // not the difference of the ends, which may be infinite
            _ => range.low * (1.0 - share) + range.high * share,
        };
        (if range.holds(x) { x } else { range.low * (1.0 - share) + range.high * share }.clamp(range.low, range.high))
            .to_bits()
    }

    /// In range, an edge, or any pattern.
    fn about(&mut self, range: &Range) -> u64 {
        match self.within(0, 7) {
            0 | 1 => self.pick(&range.edges()).to_bits(),
            2 => self.pattern(&BINARY64),
            _ => self.inside(range),
        }
    }
}

/// What a refusal by `number` stands for here: the pattern of no answer.
fn refused(number: u8) -> u64 {
    0xFFFF_FFFF_FFFF_FF00 + number as u64
}

/// The port's answer; a refusal with another value than 0.0 is none that is right.
fn answer(number: u8, value: f64) -> u64 {
    match number {
        0 => bits64(value),
        _ if value.to_bits() == 0 => refused(number),
        _ => refused(0),
    }
}

/// Every choice of one edge for each argument.
fn combinations<const N: usize>(ranges: [&Range; N]) -> Vec<[u64; N]> {
    let edges = ranges.map(Range::edges);
    let count = edges[0].len();
    let place = |n: usize, i: usize| n / count.pow(i as u32) % count;
    (0..count.pow(N as u32)).map(|n| std::array::from_fn(|i| edges[i][place(n, i)].to_bits())).collect()
}

/// `compare!(context, title, name(arg: RANGE, ..))` is `modulation::name` beside `boundary::name`.
macro_rules! compare {
    ($context:expr, $title:literal, $name:ident($($arg:ident: $range:ident),*)) => {{
        let pair = Pair {
            name: $title,
            takes: [$({ stringify!($arg); Shape::F64 }),*],
            gives: Shape::F64,
            rust: |[$($arg),*]| match $($range.holds(f64_of($arg)))&&* {
                true => bits64(modulation::$name($(f64_of($arg)),*)),
                false => refused(1),
            },
            ports: &[|[$($arg),*]| {
                let mut value = f64::NAN;
                answer(boundary::$name($(f64_of($arg)),*, &mut value), value)
            }],
            tempting: Some(|[$($arg),*]| bits64(modulation::$name($(f64_of($arg)),*))),
        };
        let draws: Vec<_> = (0..BATCH).map(|_| [$($context.random.inside(&$range)),*]).collect();
        pair.compare($context, "in range", draws);
        let draws: Vec<_> = (0..BATCH).map(|_| [$($context.random.about(&$range)),*]).collect();
        pair.compare($context, "about the ends and outside", draws);
        if $context.round == 0 {
            pair.compare($context, "every choice of edges", combinations([$(&$range),*]));
        }
    }};
}

/// M4. A list of depths, refused where one of them is out of range.
fn differs(depths: &[f64]) -> bool {
    let inside = depths.iter().all(|x| DEPTH.holds(*x));
    let right = if inside { bits64(modulation::maximum_rate_delta(depths)) } else { refused(1) };
    let mut value = f64::NAN;
    answer(boundary::maximum_rate_delta(depths, &mut value), value) != right
}

fn lists(context: &mut Context) {
    let (mut compared, mut empty, mut outside) = (0, 0, 0);
    for _ in 0..BATCH / 8 {
        let random = &mut context.random;
        let length = random.pick(&[0, 1, 2, 2, 3, 4, 8, 40]);
        let hostile = random.within(0, 3) == 0;
        let mut depths: Vec<f64> = (0..length).map(|_| f64_of(random.inside(&DEPTH))).collect();
        if hostile && length > 0 {
            let place = random.within(0, length - 1) as usize;
            depths[place] = f64_of(random.about(&DEPTH));
        }
        if differs(&depths) {
            stop(depths);
        }
        compared += 1;
        empty += depths.is_empty() as u64;
        outside += !depths.iter().all(|x| DEPTH.holds(*x)) as u64;
    }
    // a sum that starts at 0.0 gives another answer to the empty list alone
    context.count("maximum_rate_delta", "lists of 0 to 40 depths", compared - outside, Some(empty));
    context.count("maximum_rate_delta", "lists with a depth outside", outside, None);
}

fn stop(mut depths: Vec<f64>) -> ! {
    while let Some(k) = (0..depths.len()).find(|k| differs(&[&depths[..*k], &depths[*k + 1..]].concat())) {
        depths.remove(k);
    }
    let mut value = f64::NAN;
    let number = boundary::maximum_rate_delta(&depths, &mut value);
    println!("DIFFERENCE in maximum_rate_delta\n  depths {depths:?}");
    println!("  Rust {:e}, Fugnadri {value:e} with the number {number}", modulation::maximum_rate_delta(&depths));
    std::process::exit(1)
}

pub fn run(context: &mut Context) {
    compare!(context, "speed_delta", speed_delta(depth: DEPTH));
    compare!(context, "advance_phase", advance_phase(phase: CYCLE, rate: RATE, sample_rate: SAMPLE_RATE));
    compare!(context, "shape_primitive", shape_primitive(phase: PHASE, shape: SHAPE));
    compare!(context, "oscillator_delay", oscillator_delay(phase: PHASE, rate: RATE, depth: DEPTH, shape: SHAPE, sample_rate: SAMPLE_RATE));
    compare!(context, "maximum excursion", maximum_delay_excursion_samples(depth: DEPTH, rate: MINIMUM_RATE, sample_rate: SAMPLE_RATE));
    lists(context);
}
