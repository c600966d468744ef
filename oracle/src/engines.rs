//! A call of 001's engine, and the port's engines that serve it: host/'s in both ways, and the exports over 15 words.

use crate::hosts::{caught, refused};
use crate::random::Random;
use crate::shape::bits64;
use host::{lenient, modulation::ModulationParams as Params, modulation::StereoDelayOffset, strict};
use wow_dsp::modulation::ModulationParams;

pub type Words = [u64; 15];

#[derive(Clone, Copy, Debug)]
pub enum Call {
    Step(ModulationParams),
    SetSeed(u64),
    SetSampleRate(f64),
    Reset,
}

/// What a call gives: the offsets' patterns, 0 where there is none, and the number of the refusal, 0 where the call was served.
pub type Answer = ([u64; 2], u8);

pub trait Engine {
    fn call(&mut self, call: &Call) -> Answer;
    fn words(&mut self) -> &mut Words;
    /// The number that it tells where this one is due.
    fn tells(&self, call: &Call, number: u8) -> u8;
}

/// The words themselves, by the exports.
impl Engine for Words {
    fn call(&mut self, call: &Call) -> Answer {
        let (mut left, mut right) = (0.0, 0.0);
        let refusal = match call {
            Call::Step(p) => boundary::engine_next(
                self,
                p.wow_rate_hz,
                p.wow_depth_cents,
                p.wow_shape,
                p.flutter_rate_hz,
                p.flutter_depth_cents,
                p.flutter_shape,
                p.drift_amount,
                p.stereo_amount,
                &mut left,
                &mut right,
            ),
            Call::SetSeed(seed) => boundary::engine_set_seed(self, *seed),
            Call::SetSampleRate(rate) => boundary::engine_set_sample_rate(self, *rate),
            Call::Reset => boundary::engine_reset(self),
        };
        ([bits64(left), bits64(right)], refusal)
    }

    fn words(&mut self) -> &mut Words {
        self
    }

    fn tells(&self, _: &Call, number: u8) -> u8 {
        number
    }
}

fn answer((refusal, offset): (u8, StereoDelayOffset)) -> Answer {
    ([bits64(offset.left), bits64(offset.right)], refusal)
}

impl Engine for strict::modulation::ModulationEngine {
    fn call(&mut self, call: &Call) -> Answer {
        match call {
            Call::Step(p) => return answer(refused(self.next(settings(p)))),
            Call::SetSampleRate(rate) => return ([0; 2], refused(self.set_sample_rate(*rate)).0),
            Call::SetSeed(seed) => self.set_seed(*seed),
            Call::Reset => self.reset(),
        }
        ([0; 2], 0)
    }

    fn words(&mut self) -> &mut Words {
        strict::modulation::ModulationEngine::words(self)
    }

    // a seed and a reset tell none
    fn tells(&self, call: &Call, number: u8) -> u8 {
        match call {
            Call::SetSeed(_) | Call::Reset => 0,
            _ => number,
        }
    }
}

/// A sample rate that the original leaves aside is left aside here, and no panic.
impl Engine for lenient::modulation::ModulationEngine {
    fn call(&mut self, call: &Call) -> Answer {
        match call {
            Call::Step(p) => return answer(caught(|| self.next(settings(p)))),
            Call::SetSampleRate(rate) => return ([0; 2], caught(|| self.set_sample_rate(*rate)).0),
            Call::SetSeed(seed) => self.set_seed(*seed),
            Call::Reset => self.reset(),
        }
        ([0; 2], 0)
    }

    fn words(&mut self) -> &mut Words {
        lenient::modulation::ModulationEngine::words(self)
    }

    fn tells(&self, call: &Call, number: u8) -> u8 {
        match call {
            Call::SetSeed(_) | Call::Reset => 0,
            Call::SetSampleRate(rate) if !rate.is_finite() || *rate <= 0.0 => 0,
            _ => number,
        }
    }
}

/// host/'s engine, in one of its ways.
pub fn open(random: &mut Random, rate: f64, seed: u64) -> Box<dyn Engine> {
    if random.coin() {
        Box::new(strict::modulation::ModulationEngine::new(rate, seed).expect("a sample rate in range"))
    } else {
        Box::new(lenient::modulation::ModulationEngine::new(rate, seed))
    }
}

fn settings(p: &ModulationParams) -> Params {
    Params {
        wow_rate_hz: p.wow_rate_hz,
        wow_depth_cents: p.wow_depth_cents,
        wow_shape: p.wow_shape,
        flutter_rate_hz: p.flutter_rate_hz,
        flutter_depth_cents: p.flutter_depth_cents,
        flutter_shape: p.flutter_shape,
        drift_amount: p.drift_amount,
        stereo_amount: p.stereo_amount,
    }
}
