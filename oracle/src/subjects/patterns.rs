//! Floats from patterns and patterns of floats, beside `from_bits` and `to_bits`: one pattern for
//! every NaN.

use crate::context::Context;
use crate::format::{BINARY32, BINARY64};
use crate::inputs::specials;
use crate::pair::{Kind, Pair};
use crate::shape::{bits32, bits64, f32_of, f64_of, Shape};

const DOUBLE: Pair<1> = Pair {
    name: "bits_of, float_of",
    takes: [Shape::F64],
    gives: Shape::F64,
    rust: |[n]| bits64(f64_of(n)),
    ports: &[|[n]| boundary::bits_of(f64_of(n)), |[n]| bits64(boundary::float_of(n))],
    // a NaN's own pattern
    tempting: Some(|[n]| n),
};

const SINGLE: Pair<1> = Pair {
    name: "the same of f32",
    takes: [Shape::F32],
    gives: Shape::F32,
    rust: |[n]| bits32(f32_of(n)),
    ports: &[|[n]| boundary::bits_of_f32(f32_of(n)) as u64, |[n]| bits32(boundary::float_of_f32(n as u32))],
    tempting: Some(|[n]| n),
};

const DOUBLES: [Kind<1>; 2] = [
    ("any pattern", |r| [r.pattern(&BINARY64)]),
    ("NaNs", |r| [r.pattern(&BINARY64) | BINARY64.top() << BINARY64.digits | 1]),
];

const SINGLES: [Kind<1>; 2] = [
    ("any pattern", |r| [r.pattern(&BINARY32)]),
    ("NaNs", |r| [r.pattern(&BINARY32) | BINARY32.top() << BINARY32.digits | 1]),
];

pub fn run(context: &mut Context) {
    for (pair, format, kinds) in [(DOUBLE, &BINARY64, &DOUBLES), (SINGLE, &BINARY32, &SINGLES)] {
        if context.round == 0 {
            pair.compare(context, "every special value", specials(format).map(|x| [x]));
        }
        pair.draw(context, kinds);
    }
}
