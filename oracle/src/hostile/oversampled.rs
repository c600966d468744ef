//! W11. The filters of the oversampled readers, beside the same worked out plainly.

use super::{memory::Lent, turn::Turn};
use crate::{random::Random, Export};
use boundary as b;

pub const EXPORTS: &[Export] = &[
    ("fugnadri_design_lowpass", design),
    ("fugnadri_filter_history", history),
    ("fugnadri_filter_latency", latency),
    ("fugnadri_cascaded_latency", |t| {
        t.hold(b::cascaded_latency() == 64.0, "another latency is due");
        0
    }),
    ("fugnadri_filter_keep", keep),
    ("fugnadri_filter_push", push),
    ("fugnadri_filter_output", output),
    ("fugnadri_filter_outputs", outputs),
];

/// Taps: mostly those of a filter, or anything.
pub fn taps(r: &mut Random) -> usize {
    match r.word() % 16 {
        0 => r.whole() as usize,
        1 => r.pick(&[0, 1, 15, 16, 18, 128, 130, 131, usize::MAX]),
        _ => 17 + 2 * (r.word() % 57) as usize,
    }
}

fn factor(r: &mut Random) -> usize {
    match r.word() % 16 {
        0 => r.whole() as usize,
        1 => r.pick(&[0, 3, 5, 8, usize::MAX]),
        _ => r.pick(&[1, 2, 4]),
    }
}

pub fn taps_ok(taps: usize) -> bool {
    (17..=129).contains(&taps) && taps % 2 == 1
}

fn design(t: &mut Turn) -> u8 {
    let taps = taps(&mut t.random);
    let right = if taps <= 129 { taps } else { 64 };
    let length = t.random.length(right, 256);
    let out = t.memory.table.lend(&mut t.random, t.memory.doubles, length);
    let (cutoff, beta) = (t.random.ranged(0.0009765625, 1.0), t.random.ranged(0.0, 20.0));
    let number = b::design_lowpass(taps, cutoff, beta, out.slice());
    let due = if !(taps_ok(taps) && (0.0009765625..1.0).contains(&cutoff) && (0.0..=20.0).contains(&beta)) {
        1
    } else if length != taps {
        2
    } else {
        0
    };
    t.hold(number == due, "another refusal is due");
    t.hold(if number == 0 { out.zone_kept() } else { out.kept() }, "a refused design has changed the slice, or an accepted one what is beside it");
    if number == 0 {
        out.slice().iter().for_each(|x| t.saw(*x));
    }
    number
}

fn history(t: &mut Turn) -> u8 {
    let (taps, factor) = (taps(&mut t.random), factor(&mut t.random));
    let due = if taps_ok(taps) && [1, 2, 4].contains(&factor) { taps.div_ceil(factor) } else { 0 };
    t.hold(b::filter_history(taps, factor) == due, "another length is due");
    t.saw(due as i64);
    0
}

fn latency(t: &mut Turn) -> u8 {
    let (taps, factor) = (taps(&mut t.random), factor(&mut t.random));
    let due = if taps_ok(taps) && [2, 4].contains(&factor) { (taps - 1) as f64 / factor as f64 } else { 0.0 };
    t.hold(b::filter_latency(taps, factor).to_bits() == due.to_bits(), "another latency is due");
    t.saw(due);
    0
}

/// A coefficient: mostly a filter's, about the bound below which it is left out, or anything.
fn coefficient(r: &mut Random) -> f64 {
    match r.word() % 16 {
        0 => r.float(),
        1 => r.pick(&[1.0e-15, -1.0e-15, 1.0e-15f64.next_up(), -1.0e-15f64.next_up(), 5e-324]),
        2..=4 => r.pick(&[0.0, -0.0]),
        _ => (2.0 * r.unit() - 1.0) / 4.0,
    }
}

fn keep(t: &mut Turn) -> u8 {
    let length = (t.random.word() % 140) as usize;
    let lent = t.memory.table.lend(&mut t.random, t.memory.doubles, length);
    lent.slice().iter_mut().for_each(|c| *c = coefficient(&mut t.random));
    let before = lent.slice().to_vec();
    b::filter_keep(lent.slice());
    let same = lent.slice().iter().zip(&before).all(|(c, x)| c.to_bits() == if x.abs() > 1.0e-15 { x.to_bits() } else { 0 });
    t.hold(same && lent.zone_kept(), "another coefficient is kept or left out, or something beside them has changed");
    0
}

/// How many samples were pushed, with what lies beside the ends of its range.
fn pushes(r: &mut Random, length: usize) -> u64 {
    match r.word() % 8 {
        0 => r.whole(),
        1 => u64::MAX - r.word() % 200,
        2 => length as u64 * (r.word() % 100) + r.word() % 2,
        _ => r.word() % 1000,
    }
}

fn push(t: &mut Turn) -> u8 {
    let length = (t.random.word() % 140) as usize;
    let lent = t.memory.ring.lend(&mut t.random, t.memory.doubles, length);
    let (pushes, input) = (pushes(&mut t.random, length), t.random.sample());
    let mut due: Vec<u64> = lent.slice().iter().map(|x| x.to_bits()).collect();
    if length > 0 {
        let stored = if input.is_nan() { 0x7ff8_0000_0000_0000 } else { input.to_bits() };
        due[((pushes as u128 + 1) % length as u128) as usize] = stored;
    }
    b::filter_push(lent.slice(), pushes, input);
    // the one pattern is the compiler's constant, which the checked build, compiled without its passes, does not make
    let stored = |x: f64, y: u64| x.to_bits() == y || !cfg!(linked) && x.is_nan() && f64::from_bits(y).is_nan();
    t.hold(lent.slice().iter().zip(&due).all(|(x, y)| stored(*x, *y)), "another sample is stored");
    t.hold(lent.zone_kept(), "something beside the history has changed");
    0
}

/// Coefficients, a history and the rest of a call, mostly those that fit together.
struct Filter {
    coefficients: Lent<f64>,
    history: Lent<f64>,
    cs: Vec<f64>,
    xs: Vec<f64>,
    pushes: u64,
    factor: usize,
    phase: usize,
}

impl Filter {
    fn any(t: &mut Turn) -> Self {
        let (taps, factor) = ((t.random.word() % 140) as usize, factor(&mut t.random));
        let fit = if factor == 0 { taps } else { taps.div_ceil(factor) };
        let length = t.random.length(fit, 200);
        let coefficients = t.memory.table.lend(&mut t.random, t.memory.doubles, taps);
        let history = t.memory.ring.lend(&mut t.random, t.memory.doubles, length);
        coefficients.slice().iter_mut().for_each(|c| *c = coefficient(&mut t.random));
        let hostile = t.random.one_in(4);
        history.slice().iter_mut().for_each(|x| *x = if hostile { t.random.sample() } else { 2.0 * t.random.unit() - 1.0 });
        let (cs, xs) = (coefficients.slice().to_vec(), history.slice().to_vec());
        let pushes = pushes(&mut t.random, length);
        let phase = if t.random.one_in(16) { t.random.whole() as usize } else { (t.random.word() % 4) as usize };
        Filter { coefficients, history, cs, xs, pushes, factor, phase }
    }

    /// The output of a phase, lag by lag.
    fn due(&self, phase: u128) -> f64 {
        let (mut due, length) = (0.0, self.xs.len() as u128);
        for lag in 0..length {
            let index = lag * self.factor as u128 + phase;
            let place = ((self.pushes as u128 + length - lag) % length) as usize;
            if index < self.cs.len() as u128 && self.cs[index as usize] != 0.0 {
                due += self.cs[index as usize] * self.xs[place];
            }
        }
        due
    }

    fn held(&self, t: &mut Turn, answer: f64, phase: u128) {
        let due = self.due(phase);
        t.hold(answer.to_bits() == due.to_bits() || answer.is_nan() && due.is_nan(), "another output is due");
        t.saw(answer);
    }

    fn kept(&self, t: &mut Turn) {
        let same = |lent: &[f64], before: &[f64]| lent.iter().zip(before).all(|(x, y)| x.to_bits() == y.to_bits());
        t.hold(same(self.coefficients.slice(), &self.cs) && same(self.history.slice(), &self.xs), "the coefficients or the history have changed");
        t.hold(self.coefficients.zone_kept() && self.history.zone_kept(), "something beside them has changed");
    }
}

fn output(t: &mut Turn) -> u8 {
    let f = Filter::any(t);
    let answer = b::filter_output(f.coefficients.slice(), f.history.slice(), f.pushes, f.factor, f.phase);
    f.held(t, answer, f.phase as u128);
    f.kept(t);
    0
}

fn outputs(t: &mut Turn) -> u8 {
    let f = Filter::any(t);
    let word = t.random.float();
    let mut around = [word; 5];
    let [_, first, _, second, _] = &mut around;
    b::filter_outputs(f.coefficients.slice(), f.history.slice(), f.pushes, f.factor, f.phase, first, second);
    t.hold([0, 2, 4].iter().all(|k| around[*k].to_bits() == word.to_bits()), "something beside the outputs is written");
    f.held(t, around[1], f.phase as u128);
    f.held(t, around[3], f.phase as u128 + 1);
    f.kept(t);
    0
}
