//! The reader whose quality may change, by host/ in both ways.

use crate::hosts::{asked, asked_told, caught, caught_told, told};
use host::{compare::QualityReader, lenient, strict, Absent};
use std::convert::identity;

pub const HOSTS: [host::QualityMode; 4] = [host::QualityMode::Draft, host::QualityMode::Normal, host::QualityMode::Hq, host::QualityMode::Ultra];

/// A call of it.
pub struct Call {
    pub input: f32,
    pub delay: f64,
    pub quality: u8,
    /// None asks at the bank's own rate.
    pub rate: Option<f64>,
}

/// A quality reader of host/.
pub trait Port {
    fn process(&mut self, call: &Call) -> (u8, f32);
    fn process_told(&mut self, call: &Call) -> (u8, f32, Absent);
    fn reset(&mut self);
    fn state(&mut self) -> &mut QualityReader;
    /// The number that it tells where this one is due, and the name of its way.
    fn tells(&self, number: u8) -> (u8, &'static str);
}

macro_rules! port {
    ($way:ident, $given:ident, $given_told:ident, $tells:expr) => {
        impl Port for $way::QualityVariableDelayF32 {
            fn process(&mut self, call: &Call) -> (u8, f32) {
                let quality = HOSTS[call.quality as usize];
                $given(|| match call.rate {
                    None => self.process_sample(call.input, call.delay, quality),
                    Some(rate) => self.process_sample_rate_aware(call.input, call.delay, quality, rate),
                })
            }
            fn process_told(&mut self, call: &Call) -> (u8, f32, Absent) {
                let quality = HOSTS[call.quality as usize];
                $given_told(|| match call.rate {
                    None => self.process_sample_told(call.input, call.delay, quality),
                    Some(rate) => self.process_sample_rate_aware_told(call.input, call.delay, quality, rate),
                })
            }
            fn reset(&mut self) {
                $way::QualityVariableDelayF32::reset(self)
            }
            fn state(&mut self) -> &mut QualityReader {
                $way::QualityVariableDelayF32::state(self)
            }
            fn tells(&self, number: u8) -> (u8, &'static str) {
                ($tells(number), stringify!($way))
            }
        }
    };
}

port!(strict, asked, asked_told, identity);
port!(lenient, caught, caught_told, told);
