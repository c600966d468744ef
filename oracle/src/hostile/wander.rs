//! The engine: 15 words, each mostly in its range.

use super::{
    outside::{depth, rate, sample_rate, shape},
    turn::Turn,
};
use crate::Export;
use boundary as b;
use std::f64::consts::TAU;

pub const EXPORTS: &[Export] = &[
    ("fugnadri_engine_new", |t| call(t, |t, words| b::engine_new(sample_rate(t), t.random.whole(), words))),
    ("fugnadri_engine_set_sample_rate", |t| call(t, |t, words| b::engine_set_sample_rate(words, sample_rate(t)))),
    ("fugnadri_engine_set_seed", |t| {
        call(t, |t, words| {
            let held = words[3];
            let seed = if t.random.one_in(4) { held } else { t.random.whole() };
            b::engine_set_seed(words, seed)
        })
    }),
    ("fugnadri_engine_reset", |t| call(t, |_, words| b::engine_reset(words))),
    ("fugnadri_engine_next", |t| call(t, next)),
];

fn next(t: &mut Turn, words: &mut [u64; 15]) -> u8 {
    let [wow_rate, flutter_rate] = [rate(t), rate(t)];
    let [wow_depth, flutter_depth] = [depth(t), depth(t)];
    let [wow_shape, flutter_shape] = [shape(t), shape(t)];
    let [drift, stereo] = [t.random.ranged(0.0, 1.0), t.random.ranged(0.0, 1.0)];
    let mut number = 0;
    // both offsets are values: 0.0 where the step is refused
    t.value(|t, left| {
        t.value(|_, right| {
            number = b::engine_next(words, wow_rate, wow_depth, wow_shape, flutter_rate, flutter_depth, flutter_shape, drift, stereo, left, right);
            number
        })
    })
}

/// A state of which every word is mostly in its range, or words of anything.
fn words(t: &mut Turn) -> [u64; 15] {
    let r = &mut t.random;
    if r.one_in(32) {
        return std::array::from_fn(|_| r.whole());
    }
    std::array::from_fn(|k| match k {
        0 => r.ranged(8000.0, 768000.0).to_bits(),
        1 | 2 => r.ranged(0.0, TAU.next_down()).to_bits(),
        3 | 4 | 9 | 10 => r.word() >> (r.word() % 8),
        5 | 6 | 11 | 12 => r.ranged(-1.0, 1.0).to_bits(),
        7 | 13 => r.ranged(0.0, 1f64.next_down()).to_bits(),
        _ => r.ranged(0.65, 1.35).to_bits(),
    })
}

fn call(t: &mut Turn, call: impl FnOnce(&mut Turn, &mut [u64; 15]) -> u8) -> u8 {
    let memory = t.memory;
    let (before, lent) = (words(t), memory.words.lend(&mut t.random, memory.doubles, 15));
    let words: &mut [u64; 15] = unsafe { &mut *lent.slice().as_mut_ptr().cast() };
    *words = before;
    let number = call(t, words);
    t.hold(number <= 8, "the answer is no refusal's number");
    t.hold(lent.zone_kept(), "something beside the words is written");
    if number == 0 {
        words.iter().for_each(|word| t.saw(*word as i64));
    } else {
        t.hold(*words == before, "a refused call has changed a word");
    }
    number
}
