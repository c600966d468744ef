//! 001's engine, beside the port's: runs of calls, with both offsets and every field of the state
//! compared bit for bit after each call. The port is host/'s engine, in one of its two ways.

use crate::context::Context;
use crate::engines::{self, Call, Engine, Words};
use crate::random::Random;
use crate::shape::bits64;
use std::f64::consts::TAU;
use wow_dsp::modulation::{ModulationEngine, ModulationParams, SmoothRandom};

/// Seeds that 01 names: 0 and what it becomes, and the seed whose flutter seed is 0.
const SEEDS: [u64; 5] = [0, 0xA076_1D64_78BD_642F, 0xD1B5_4A32_D192_ED03, 1, u64::MAX];
const RATES: [f64; 8] = [8000.0, 11025.0, 44100.0, 48000.0, 96000.0, 192000.0, 767999.9999999999, 768000.0];

/// The original's state, field by field in its order.
fn words(e: &ModulationEngine) -> Words {
    let (a, b) = (generator(&e.wow_drift), generator(&e.flutter_drift));
    let own = [e.sample_rate, e.wow_phase, e.flutter_phase].map(bits64);
    std::array::from_fn(|i| match i {
        0..=2 => own[i],
        3..=8 => a[i - 3],
        _ => b[i - 9],
    })
}

fn generator(g: &SmoothRandom) -> [u64; 6] {
    let floats = [g.current, g.next, g.position, g.segment_rate_scale].map(bits64);
    [g.initial_seed, g.state, floats[0], floats[1], floats[2], floats[3]]
}

/// What a call hands out: the offsets of a step, and nothing else.
fn rust(e: &mut ModulationEngine, call: &Call) -> [u64; 2] {
    match *call {
        Call::Step(params) => {
            let offset = e.next(params);
            return [bits64(offset.left), bits64(offset.right)];
        }
        Call::SetSeed(seed) => e.set_seed(seed),
        Call::SetSampleRate(rate) => e.set_sample_rate(rate),
        Call::Reset => e.reset(),
    }
    [0; 2]
}

impl Random {
    fn seed(&mut self) -> u64 {
        if self.coin() {
            self.pick(&SEEDS)
        } else {
            self.word()
        }
    }

    fn sample_rate(&mut self) -> f64 {
        if self.coin() {
            self.pick(&RATES)
        } else {
            8000.0 + 760000.0 * self.unit()
        }
    }

    /// A rate or a depth: at its limits, about zero, anywhere, or small.
    fn up_to(&mut self, limit: f64) -> f64 {
        let size = match self.within(0, 3) {
            0 => self.pick(&[limit, 0.0, 1.0, f64::MIN_POSITIVE, 5e-324, 0.001, limit - limit * f64::EPSILON]),
            1 => limit * self.unit(),
            _ => limit * self.unit() * 0.5f64.powi(self.within(0, 40) as i32),
        };
        if self.within(0, 3) == 0 {
            -size
        } else {
            size
        }
    }

    /// A shape or an amount, which 001 clamps: about the ends of its range, within it, or far outside.
    fn clamped(&mut self) -> f64 {
        let size = match self.within(0, 3) {
            0 => self.pick(&[0.0, 1.0, 0.5, 1.0 + f64::EPSILON, 1.0 - f64::EPSILON / 2.0, 5e-324, f64::MAX]),
            1 => 4.0 * self.unit(),
            _ => self.unit(),
        };
        if self.coin() {
            -size
        } else {
            size
        }
    }

    fn settings(&mut self) -> ModulationParams {
        if self.within(0, 15) == 0 {
            return ModulationParams::default();
        }
        ModulationParams {
            wow_rate_hz: self.up_to(1000.0),
            wow_depth_cents: self.up_to(1200.0),
            wow_shape: self.clamped(),
            flutter_rate_hz: self.up_to(1000.0),
            flutter_depth_cents: self.up_to(1200.0),
            flutter_shape: self.clamped(),
            drift_amount: self.clamped(),
            stereo_amount: self.clamped(),
        }
    }

    /// From 0 to below `top`, often beside one of the two.
    fn below(&mut self, top: f64) -> f64 {
        match self.within(0, 3) {
            0 => f64::from_bits(top.to_bits() - self.within(1, 1 << 20) as u64),
            1 => self.pick(&[0.0, -0.0, 5e-324, top / 2.0]),
            2 => top * (1.0 - self.unit() * 0.5f64.powi(self.within(8, 20) as i32)).min(1.0 - f64::EPSILON),
            _ => top * self.unit() * (1.0 - f64::EPSILON),
        }
    }

    /// A generator's state of any kind that 01 allows (G8).
    fn generator(&mut self) -> SmoothRandom {
        SmoothRandom {
            initial_seed: self.word().max(1),
            state: self.word().max(1),
            current: 2.0 * self.unit() - 1.0,
            next: 2.0 * self.unit() - 1.0,
            position: self.below(1.0),
            segment_rate_scale: (0.65 + 0.7 * self.unit()).clamp(0.65, 1.35),
        }
    }

    /// One call of a run: a step with the settings held, or now and then something else.
    fn call(&mut self, held: &mut ModulationParams, others: bool) -> Call {
        if self.within(0, 31) == 0 {
            *held = self.settings();
        }
        match if others { self.within(0, 255) } else { 255 } {
            0 => Call::SetSeed(self.seed()),
            1 => Call::SetSampleRate(self.sample_rate()),
            2 => Call::Reset,
            _ => Call::Step(*held),
        }
    }
}

/// A run of calls from the same state on both sides. Counts the calls, and those after which a
/// generator has drawn: they tell the drift from one that keeps its first targets.
fn compare(context: &mut Context, kind: &'static str, mut e: ModulationEngine, mut port: Box<dyn Engine>, calls: u64, others: bool) {
    let mut held = context.random.settings();
    let mut drawn = 0;
    for _ in 0..calls {
        let call = context.random.call(&mut held, others);
        let before = words(&e);
        let right = rust(&mut e, &call);
        let (found, refusal) = port.call(&call);
        let after = words(&e);
        if refusal != 0 || found != right || *port.words() != after {
            stop(kind, &call, &before, (right, &after), (found, port.words()), refusal);
        }
        drawn += (after[4] != before[4] || after[10] != before[10]) as u64;
    }
    context.count("modulation", kind, calls, Some(drawn));
}

fn stop(kind: &str, call: &Call, before: &Words, rust: ([u64; 2], &Words), port: ([u64; 2], &Words), refusal: u8) -> ! {
    println!("DIFFERENCE in modulation, among {kind}\n  {call:?}\n  from     {before:016X?}");
    println!("    Rust     {:016X?}\n             {:016X?}", rust.0, rust.1);
    println!("    Fugnadri {:016X?}, refusal {refusal}\n             {:016X?}", port.0, port.1);
    std::process::exit(1)
}

/// A run from a new engine, which is compared too.
fn opened(context: &mut Context, kind: &'static str, calls: u64) {
    let (rate, seed) = (context.random.sample_rate(), context.random.seed());
    let engine = ModulationEngine::new(rate, seed);
    let mut port = engines::open(&mut context.random, rate, seed);
    let right = words(&engine);
    if *port.words() != right {
        println!("new({rate:e}, {seed:016X})");
        stop(kind, &Call::Reset, &[0; 15], ([0; 2], &right), ([0; 2], port.words()), 0);
    }
    compare(context, kind, engine, port, calls, true);
}

/// A step or two from any state that 01 allows.
fn anywhere(context: &mut Context, kind: &'static str) {
    let r = &mut context.random;
    let engine = ModulationEngine {
        sample_rate: r.sample_rate(),
        wow_phase: r.below(TAU),
        flutter_phase: r.below(TAU),
        wow_drift: r.generator(),
        flutter_drift: r.generator(),
    };
    let mut port = engines::open(r, engine.sample_rate, 1);
    *port.words() = words(&engine);
    compare(context, kind, engine, port, 2, false);
}

/// G6, G7. A setting or a sample rate that is out of range is refusal 1; a state that is, 3 (G8). The port alone is asked: the offsets are
/// 0.0 and no word has changed.
fn refused(context: &mut Context, kind: &'static str) {
    let r = &mut context.random;
    let (rate, seed) = (r.sample_rate(), r.seed());
    let mut state = [0; 15];
    boundary::engine_new(rate, seed, &mut state);
    let mut p = r.settings();
    let beyond = [f64::NAN, f64::INFINITY, f64::NEG_INFINITY];
    let (fast, deep) = (1000f64.next_up(), 1200f64.next_up());
    let (call, number) = match r.within(0, 12) {
        0 => (
            Call::SetSampleRate(r.pick(&[
                f64::NAN,
                f64::INFINITY,
                0.0,
                -48000.0,
                8000f64.next_down(),
                768000f64.next_up(),
            ])),
            1,
        ),
        field @ 1..=8 => {
            let none = r.pick(&beyond);
            let limit =
                if r.coin() { none } else { r.pick(&[-1.0, 1.0]) * if matches!(field, 1 | 4) { fast } else { deep } };
            match field {
                1 => p.wow_rate_hz = limit,
                2 => p.wow_depth_cents = limit,
                3 => p.wow_shape = none,
                4 => p.flutter_rate_hz = limit,
                5 => p.flutter_depth_cents = limit,
                6 => p.flutter_shape = none,
                7 => p.drift_amount = none,
                _ => p.stereo_amount = none,
            }
            (Call::Step(p), 1)
        }
        // a phase of TAU, a position of 1, a target above 1, a state of 0
        which => {
            let (place, word) =
                [(1, TAU.to_bits()), (7, 1f64.to_bits()), (12, 1f64.next_up().to_bits()), (10, 0)][which as usize - 9];
            state[place] = word;
            (if r.coin() { Call::Step(p) } else { Call::Reset }, 3)
        }
    };
    let mut after = state;
    let (found, refusal) = after.call(&call);
    if refusal != number || found != [0; 2] || after != state {
        stop(kind, &call, &state, ([0; 2], &state), (found, &after), refusal);
    }
    let mut host = engines::open(r, rate, seed);
    *host.words() = state;
    let (found, refusal) = host.call(&call);
    if refusal != host.tells(&call, number) || found != [0; 2] || *host.words() != state {
        stop("refused calls by host/", &call, &state, ([0; 2], &state), (found, host.words()), refusal);
    }
    context.count("modulation", kind, 2, None);
}

/// The words that are floats.
const FLOATS: [usize; 11] = [0, 1, 2, 5, 6, 7, 8, 11, 12, 13, 14];
const NANS: [u64; 6] =
    [0x7FF8_0000_0000_0000, 0xFFF8_0000_0000_0000, 0x7FF0_0000_0000_0001, 0xFFF0_0000_0000_0001, u64::MAX, 0x7FF4_0000_0000_BEEF];

/// A NaN of any pattern in the state: refused by 3, in the sample rate by 1, and every word stays, bit by bit.
fn refused_with_nan(context: &mut Context) {
    let r = &mut context.random;
    let mut state = [0; 15];
    boundary::engine_new(r.sample_rate(), r.seed(), &mut state);
    let place = r.pick(&FLOATS);
    state[place] = r.pick(&NANS);
    let number = if place == 0 { 1 } else { 3 };
    let call = match r.within(0, 3) {
        0 => Call::SetSeed(r.seed()),
        1 => Call::Reset,
        // a new rate takes the place of the old one, which is not looked at
        2 if place != 0 => Call::SetSampleRate(r.sample_rate()),
        _ => Call::Step(r.settings()),
    };
    let mut after = state;
    let (found, refusal) = after.call(&call);
    if refusal != number || found != [0; 2] || after != state {
        stop("a NaN in the state", &call, &state, ([0; 2], &state), (found, &after), refusal);
    }
    context.count("modulation", "refused, a NaN of any pattern left as it was", 1, None);
}

pub fn run(context: &mut Context) {
    for _ in 0..512 {
        refused(context, "refused calls, the port alone");
        refused_with_nan(context);
    }
    for _ in 0..8 {
        opened(context, "runs of 2048 calls from a new engine", 2048);
    }
    if context.round % 8 == 0 {
        opened(context, "runs of 65,536 calls from a new engine", 65_536);
    }
    for _ in 0..4096 {
        anywhere(context, "steps from any state in range");
    }
}
