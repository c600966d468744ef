//! f64 to f32, beside `as f32`.

use crate::context::Context;
use crate::format::{BINARY32, BINARY64};
use crate::inputs::{ladder, specials};
use crate::pair::{Kind, Pair};
use crate::shape::{bits32, f64_of, Shape};

const NARROW: Pair<1> = Pair {
    name: "narrow",
    takes: [Shape::F64],
    gives: Shape::F32,
    rust: |[x]| bits32(f64_of(x) as f32),
    ports: &[|[x]| bits32(boundary::narrow(f64_of(x))), |[x]| boundary::narrow_bits(x) as u64],
    // ties away from zero
    tempting: Some(|[x]| bits32(f64_of(x.wrapping_add(0x1000_0000) & !0x1FFF_FFFF) as f32)),
};

const KINDS: [Kind<1>; 4] = [
    ("any pattern", |r| [r.pattern(&BINARY64)]),
    ("f32 midpoints and beside them", |r| {
        let field = r.within(874, 1150);
        let middle = r.at(&BINARY64, field) & !0x1FFF_FFFF | 0x1000_0000;
        [r.beside(middle, 2)]
    }),
    ("subnormal midpoints and beside them", |r| {
        let units = r.within(0, 1 << 23) as f64 + 0.5;
        let middle = (units * f64::from_bits(874 << 52)).to_bits() | (r.coin() as u64) << 63;
        [r.beside(middle, 2)]
    }),
    ("about the largest f32", |r| {
        let largest = (f32::MAX as f64).to_bits() | (r.coin() as u64) << 63;
        [r.beside(largest, 0x2000_0000)]
    }),
];

pub fn run(context: &mut Context) {
    if context.round == 0 {
        NARROW.compare(context, "every special value", specials(&BINARY64).map(|x| [x]));
        NARROW.compare(context, "every exponent, digits at the cut", ladder(&BINARY64, &cuts()).map(|x| [x]));
    }
    NARROW.draw(context, &KINDS);
}

/// Digits that end at, just below and just above each place at which a normal or a subnormal f32
/// cuts them off.
fn cuts() -> Vec<u64> {
    let mut digits = vec![0, 1, BINARY64.all_digits()];
    for place in 28..52 {
        for upper in [0, 1, 2, 3, BINARY32.all_digits()] {
            let cut = (upper << place << 1 | 1 << place) & BINARY64.all_digits();
            digits.extend([cut - 1, cut, cut + 1]);
        }
    }
    digits
}
