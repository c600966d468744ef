//! Runs of `ModulationEngine`, with the answers beside the calls: replay_wander compares them.
//!
//! A line is a letter, a blank and three words. `o`, the sample rate, the seed and a number, opens an
//! engine; `w`, `f` (rate, depth, shape) and `a` (drift, stereo, 0) are the settings of the steps
//! that follow; `n` is so many steps, with both offsets of the last; `x`, a number, 0 and 0, is a step
//! that is refused by it; `t` (sample rate), `d` (seed) and `r` set anew and reset, with 0 and a
//! number; `0` to `4` are three of the state's 15 words each. A number is that of the refusal, 0 for
//! none. The original knows no refusal: where 01 has one it is not called, and its state stays.
//!
//! A star in the place of the blank marks a line in whose answer one bit was changed: it must differ.

use crate::random::Random;
use crate::{pattern, List};
use wow_dsp::modulation::{ModulationEngine, ModulationParams, SmoothRandom};

/// 0 and what it becomes, the seed whose flutter seed becomes that, 1, and two of any kind.
const SEEDS: [u64; 6] =
    [0, 0xA076_1D64_78BD_642F, 0xD1B5_4A32_D192_ED03, 1, 0x9E37_79B9_7F4A_7C15, 0x0123_4567_89AB_CDEF];
const RATES: [f64; 6] = [8000.0, 44100.0, 48000.0, 96000.0, 192000.0, 768000.0];

pub fn write(list: &mut List) {
    let mut w = Writer { list, random: Random::new(1), compared: 0, changed: 0 };
    for (n, &seed) in SEEDS.iter().enumerate() {
        for rate in [RATES[n], RATES[(n + 3) % 6], 8000.0 + 760000.0 * w.random.unit()] {
            w.run(rate, seed);
        }
    }
    let (compared, changed) = (w.compared, w.changed);
    list.say(&format!("answers compared: {compared}"));
    list.say("of these different: 0");
    list.say(&format!("changed on purpose: {changed}"));
    list.say(&format!("of these different: {changed}"));
}

struct Writer<'a> {
    list: &'a mut List,
    random: Random,
    compared: u64,
    changed: u64,
}

impl Writer<'_> {
    /// A line with an answer, its last `answers` words: about one in 32 has a bit of it changed.
    fn line(&mut self, letter: char, mut words: [u64; 3], answers: i64) {
        let change = self.random.within(0, 31) == 0;
        if change {
            let place = self.random.within(3 - answers, 2) as usize;
            words[place] ^= 1 << self.random.within(0, 63);
            self.changed += 1;
        } else {
            self.compared += 1;
        }
        self.list.call(letter, if change { '*' } else { ' ' }, words);
    }

    fn state(&mut self, e: &ModulationEngine) {
        let own = [e.sample_rate, e.wow_phase, e.flutter_phase].map(pattern);
        let [a, b] = [&e.wow_drift, &e.flutter_drift].map(generator);
        for (digit, words) in ['0', '1', '2', '3', '4'].into_iter().zip([own, a[0], a[1], b[0], b[1]]) {
            self.line(digit, words, 3);
        }
    }

    fn settings(&mut self, p: &ModulationParams) {
        let lines = [
            ('w', [p.wow_rate_hz, p.wow_depth_cents, p.wow_shape]),
            ('f', [p.flutter_rate_hz, p.flutter_depth_cents, p.flutter_shape]),
            ('a', [p.drift_amount, p.stereo_amount, 0.0]),
        ];
        for (letter, words) in lines {
            self.list.call(letter, ' ', words.map(f64::to_bits));
        }
    }

    fn steps(&mut self, e: &mut ModulationEngine, p: &ModulationParams, count: u64) {
        let offset = (0..count).map(|_| e.next(*p)).last().expect("a step");
        self.line('n', [count, pattern(offset.left), pattern(offset.right)], 2);
    }

    /// A step that 01 refuses by 1, since a setting is out of range; then the settings held before.
    fn refused(&mut self, e: &ModulationEngine, held: &ModulationParams) {
        let mut p = *held;
        let which = self.random.within(0, 2) as usize;
        let none = [f64::NAN, f64::INFINITY, f64::NEG_INFINITY][which];
        match self.random.within(0, 7) {
            0 => p.wow_rate_hz = [1000f64.next_up(), -1000f64.next_up(), f64::NAN][which],
            1 => p.wow_depth_cents = [1200f64.next_up(), -1200f64.next_up(), f64::INFINITY][which],
            2 => p.wow_shape = none,
            3 => p.flutter_rate_hz = [1e300, -1001.0, f64::NEG_INFINITY][which],
            4 => p.flutter_depth_cents = [1201.0, -1e300, f64::NAN][which],
            5 => p.flutter_shape = none,
            6 => p.drift_amount = none,
            _ => p.stereo_amount = none,
        }
        self.settings(&p);
        self.list.call('x', ' ', [1, 0, 0]);
        self.compared += 1;
        self.state(e);
        self.settings(held);
    }

    /// One engine: steps one by one and in long strides, and everything else in mid-sequence.
    fn run(&mut self, rate: f64, seed: u64) {
        let mut e = ModulationEngine::new(rate, seed);
        self.line('o', [rate.to_bits(), seed, 0], 1);
        self.state(&e);
        let mut held = ModulationParams::default();
        self.settings(&held);
        for turn in 0..100 {
            match turn {
                20 => self.seed(&mut e, seed),
                35 => self.rate(&mut e, 44100.0),
                36 => self.outside(&e),
                45 => self.seed(&mut e, 0xA076_1D64_78BD_642F),
                46 => self.seed(&mut e, 0),
                60 => {
                    e.reset();
                    self.line('r', [0; 3], 1);
                    self.state(&e);
                }
                75 => self.refused(&e, &held),
                90 => {
                    let word = self.random.word();
                    self.seed(&mut e, word);
                }
                n if n % 8 == 3 => {
                    held = self.draw();
                    self.settings(&held);
                }
                _ => {}
            }
            let far = self.random.within(0, 7) == 0;
            let count = if far { self.random.within(500, 6000) } else { self.random.within(1, 40) };
            self.steps(&mut e, &held, count as u64);
        }
        self.state(&e);
    }

    fn seed(&mut self, e: &mut ModulationEngine, seed: u64) {
        e.set_seed(seed);
        self.line('d', [seed, 0, 0], 1);
        self.state(e);
    }

    fn rate(&mut self, e: &mut ModulationEngine, rate: f64) {
        e.set_sample_rate(rate);
        self.line('t', [rate.to_bits(), 0, 0], 1);
        self.state(e);
    }

    /// A sample rate that 01 refuses.
    fn outside(&mut self, e: &ModulationEngine) {
        let rates = [8000f64.next_down(), 768000f64.next_up(), 0.0, -48000.0, f64::NAN, f64::INFINITY];
        let rate = rates[self.random.within(0, 5) as usize];
        self.line('t', [rate.to_bits(), 0, 1], 1);
        self.line('o', [rate.to_bits(), 1, 1], 1);
        self.state(e);
    }

    /// Settings in 01's ranges: at their ends, at zero, or between; shapes and amounts outside of what 001 clamps them to.
    fn draw(&mut self) -> ModulationParams {
        let mut up_to = |limit: f64| {
            let part = limit * self.random.unit();
            let slow = part * 0.5f64.powi(self.random.within(0, 12) as i32);
            match self.random.within(0, 7) {
                0 => limit,
                1 => -limit,
                2 => [0.0, -0.0, 5e-324, 0.001][self.random.within(0, 3) as usize],
                3 => -part,
                4 => part,
                _ => slow,
            }
        };
        let (wow_rate_hz, wow_depth_cents) = (up_to(1000.0), up_to(1200.0));
        let (flutter_rate_hz, flutter_depth_cents) = (up_to(1000.0), up_to(1200.0));
        let mut clamped = || {
            let part = self.random.unit();
            match self.random.within(0, 7) {
                0 => 1.0,
                1 => -1.0,
                2 => [0.0, -0.0, 7.5, -f64::MAX][self.random.within(0, 3) as usize],
                3 | 4 => -part,
                _ => part,
            }
        };
        let (wow_shape, flutter_shape) = (clamped(), clamped());
        let (drift_amount, stereo_amount) = (clamped(), clamped());
        ModulationParams {
            wow_rate_hz,
            wow_depth_cents,
            wow_shape,
            flutter_rate_hz,
            flutter_depth_cents,
            flutter_shape,
            drift_amount,
            stereo_amount,
        }
    }
}

/// A generator's six words.
fn generator(g: &SmoothRandom) -> [[u64; 3]; 2] {
    [
        [g.initial_seed, g.state, pattern(g.current)],
        [pattern(g.next), pattern(g.position), pattern(g.segment_rate_scale)],
    ]
}
