//! What stands outside the engine, and the elementary functions: a number, and a value through the last argument.

use super::turn::Turn;
use crate::Export;
use boundary as b;
use std::f64::consts::TAU;

pub const EXPORTS: &[Export] = &[
    ("fugnadri_sine", |t| t.value(|t, v| b::sine_or_refusal(t.random.ranged(-256.0, 256.0), v))),
    ("fugnadri_cosine", |t| t.value(|t, v| b::cosine_or_refusal(t.random.ranged(-256.0, 256.0), v))),
    ("fugnadri_exp2", |t| t.value(|t, v| b::exp2_or_refusal(t.random.ranged(-1.0, 1.0), v))),
    ("fugnadri_speed_delta", |t| t.value(|t, v| b::speed_delta(depth(t), v))),
    ("fugnadri_advance_phase", |t| t.value(|t, v| b::advance_phase(t.random.ranged(0.0, TAU), rate(t), sample_rate(t), v))),
    ("fugnadri_shape_primitive", |t| t.value(|t, v| b::shape_primitive(t.random.ranged(-51.0, 51.0), shape(t), v))),
    ("fugnadri_oscillator_delay", |t| {
        t.value(|t, v| b::oscillator_delay(t.random.ranged(-51.0, 51.0), rate(t), depth(t), shape(t), sample_rate(t), v))
    }),
    ("fugnadri_maximum_delay_excursion_samples", |t| {
        t.value(|t, v| b::maximum_delay_excursion_samples(depth(t), t.random.ranged(0.001, 1000.0), sample_rate(t), v))
    }),
    ("fugnadri_maximum_rate_delta", rate_delta),
];

pub fn depth(t: &mut Turn) -> f64 {
    t.random.ranged(-1200.0, 1200.0)
}

pub fn rate(t: &mut Turn) -> f64 {
    t.random.ranged(-1000.0, 1000.0)
}

/// 001 clamps it.
pub fn shape(t: &mut Turn) -> f64 {
    t.random.ranged(-2.0, 2.0)
}

pub fn sample_rate(t: &mut Turn) -> f64 {
    t.random.ranged(8000.0, 768000.0)
}

fn rate_delta(t: &mut Turn) -> u8 {
    let memory = t.memory;
    let length = (t.random.word() % 8 * (t.random.word() % 8)) as usize;
    let lent = memory.source.lend(&mut t.random, memory.doubles, length);
    // one list in two is of anything
    if t.random.one_in(2) {
        lent.slice().iter_mut().for_each(|x| *x = depth(t));
    }
    let before: Vec<u64> = lent.slice().iter().map(|x| x.to_bits()).collect();
    let number = t.value(|_, v| b::maximum_rate_delta(lent.slice(), v));
    t.hold(lent.zone_kept() && lent.slice().iter().map(|x| x.to_bits()).eq(before), "the list has changed");
    number
}
