//! The number functions: they refuse nothing.

use super::turn::Turn;
use crate::Export;
use boundary as b;

/// A function that hands out a float or a word.
macro_rules! plain {
    ($symbol:literal, $call:path, $($draw:ident),*) => {
        ($symbol, |t: &mut Turn| {
            let r = &mut t.random;
            let answer = $call($(r.$draw() as _),*);
            t.saw(answer);
            0
        })
    };
}

/// One that takes and hands out patterns.
macro_rules! bits {
    ($symbol:literal, $call:path, $($draw:ident),*) => {
        ($symbol, |t: &mut Turn| {
            let r = &mut t.random;
            let bits = $call($(r.$draw().to_bits()),*);
            t.saw(bits);
            0
        })
    };
}

pub const EXPORTS: &[Export] = &[
    plain!("fugnadri_narrow", b::narrow, float),
    bits!("fugnadri_narrow_bits", b::narrow_bits, float),
    plain!("fugnadri_fused32", b::fused32, float32, float32, float32),
    bits!("fugnadri_fused32_bits", b::fused32_bits, float32, float32, float32),
    plain!("fugnadri_fused64", b::fused64, float, float, float),
    bits!("fugnadri_fused64_bits", b::fused64_bits, float, float, float),
    plain!("fugnadri_square_root", b::square_root, float),
    bits!("fugnadri_square_root_bits", b::square_root_bits, float),
    plain!("fugnadri_floor", b::floor, float),
    plain!("fugnadri_fraction", b::fraction, float),
    bits!("fugnadri_fraction_bits", b::fraction_bits, float),
    plain!("fugnadri_max", b::max, float, float),
    plain!("fugnadri_min", b::min, float, float),
    plain!("fugnadri_min_f32", b::min_f32, float32, float32),
    plain!("fugnadri_clamp", b::clamp, float, float, float),
    plain!("fugnadri_clamp_f32", b::clamp_f32, float32, float32, float32),
    // whole numbers, and no patterns of floats
    ("fugnadri_wrapping_mul", |t| {
        let answer = b::wrapping_mul(t.random.whole(), t.random.whole());
        t.saw(answer as i64);
        0
    }),
    ("fugnadri_shl", |t| {
        let answer = b::shl(t.random.whole(), t.random.whole());
        t.saw(answer as i64);
        0
    }),
    ("fugnadri_bits_of", |t| {
        let bits = b::bits_of(t.random.float());
        t.saw(bits);
        0
    }),
    ("fugnadri_bits_of_f32", |t| {
        let bits = b::bits_of_f32(t.random.float32());
        t.saw(bits);
        0
    }),
    ("fugnadri_float_of", |t| {
        let answer = b::float_of(t.random.float().to_bits());
        t.saw(answer);
        0
    }),
    ("fugnadri_float_of_f32", |t| {
        let answer = b::float_of_f32(t.random.float32().to_bits());
        t.saw(answer);
        0
    }),
    ("fugnadri_sine_value", |t| {
        let answer = b::sine(t.random.ranged(-256.0, 256.0));
        t.saw(answer);
        0
    }),
    ("fugnadri_cosine_value", |t| {
        let answer = b::cosine(t.random.ranged(-256.0, 256.0));
        t.saw(answer);
        0
    }),
    ("fugnadri_exp2_value", |t| {
        let answer = b::exp2(t.random.ranged(-1.0, 1.0));
        t.saw(answer);
        0
    }),
    ("fugnadri_bank_length", |t| {
        let answer = b::bank_length(t.random.ranged(1.0, 2.0));
        t.saw(answer);
        0
    }),
    ("fugnadri_bank_steps", |t| {
        let answer = b::bank_steps(t.random.ranged(1.0, 2.0));
        t.saw(answer);
        0
    }),
    ("fugnadri_bank_set_rate", |t| {
        let answer = b::bank_set_rate(t.random.ranged(1.0, 2.0), t.random.count(0, 50) as usize);
        t.saw(answer);
        0
    }),
];
