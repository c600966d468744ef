//! The square root, beside `sqrt`.

use crate::context::Context;
use crate::format::BINARY64;
use crate::inputs::{ladder, specials};
use crate::pair::{Kind, Pair};
use crate::shape::{bits64, f64_of, Shape};

const SQUARE_ROOT: Pair<1> = Pair {
    name: "square_root",
    takes: [Shape::F64],
    gives: Shape::F64,
    rust: |[x]| bits64(f64_of(x).sqrt()),
    ports: &[|[x]| bits64(boundary::square_root(f64_of(x))), |[x]| boundary::square_root_bits(x)],
    // by the reciprocal, which rounds three times
    tempting: Some(|[x]| bits64(f64_of(x) * (1.0 / f64_of(x).sqrt()))),
};

const KINDS: [Kind<1>; 4] = [
    ("any pattern", |r| [r.pattern(&BINARY64)]),
    ("positive, digits sparse or full", |r| {
        let field = r.within(0, 2046);
        [r.at(&BINARY64, field) & !(1 << 63)]
    }),
    ("squares and beside them", |r| {
        let root = r.within(1, 1 << 26) as f64;
        let square = root * root * f64::from_bits((r.within(100, 1800) as u64) << 52);
        [r.beside(square.to_bits(), 2)]
    }),
    ("roots beside a midpoint", |r| {
        // (n + 1/2)^2 is n (n + 1) + 1/4: of a number beside it the root lies beside n + 1/2
        let n = (1u128 << 52) + (r.word() >> 12) as u128;
        let square = (n * (n + 1)) as f64 * f64::from_bits((r.within(100, 1800) as u64) << 52);
        [r.beside(square.to_bits(), 2)]
    }),
];

pub fn run(context: &mut Context) {
    if context.round == 0 {
        SQUARE_ROOT.compare(context, "every special value", specials(&BINARY64).map(|x| [x]));
        let all = BINARY64.all_digits();
        let digits = [0, 1, 2, 3, 1 << 51, all - 2, all - 1, all];
        SQUARE_ROOT.compare(context, "every exponent, few digits or all", ladder(&BINARY64, &digits).map(|x| [x]));
    }
    SQUARE_ROOT.draw(context, &KINDS);
}
