//! The integer part and the fraction of a position, beside `floor() as i64`.

use crate::context::Context;
use crate::format::BINARY64;
use crate::inputs::{ladder, specials};
use crate::pair::{Kind, Pair};
use crate::shape::{bits64, f64_of, Shape};

const FLOOR: Pair<1> = Pair {
    name: "floor",
    takes: [Shape::F64],
    gives: Shape::Signed,
    rust: |[x]| (f64_of(x).floor() as i64) as u64,
    ports: &[|[x]| boundary::floor(f64_of(x)) as u64],
    // cut towards zero: wrong before sample 0
    tempting: Some(|[x]| (f64_of(x) as i64) as u64),
};

const FRACTION: Pair<1> = Pair {
    name: "fraction",
    gives: Shape::F64,
    rust: |[x]| bits64(f64_of(x) - (f64_of(x).floor() as i64) as f64),
    ports: &[|[x]| bits64(boundary::fraction(f64_of(x))), |[x]| boundary::fraction_bits(x)],
    // from the number cut towards zero
    tempting: Some(|[x]| bits64(f64_of(x) - (f64_of(x) as i64) as f64)),
    ..FLOOR
};

const KINDS: [Kind<1>; 4] = [
    ("any pattern", |r| [r.pattern(&BINARY64)]),
    ("whole numbers and beside them", |r| {
        let whole = (r.word() as i64 >> r.within(1, 63)) as f64;
        [r.beside(whole.to_bits(), 2)]
    }),
    ("positions up to 2^37", |r| {
        let field = r.within(1023 - 60, 1023 + 37);
        [r.at(&BINARY64, field)]
    }),
    ("about the ends of i64", |r| {
        let field = r.within(1023 + 50, 1023 + 66);
        [r.at(&BINARY64, field)]
    }),
];

pub fn run(context: &mut Context) {
    for pair in [FLOOR, FRACTION] {
        if context.round == 0 {
            pair.compare(context, "every special value", specials(&BINARY64).map(|x| [x]));
            let places: Vec<u64> =
                (0..52).flat_map(|n| [(1 << n) - 1, 1 << n, BINARY64.all_digits() - (1 << n)]).collect();
            pair.compare(context, "every exponent, a digit at each place", ladder(&BINARY64, &places).map(|x| [x]));
        }
        pair.draw(context, &KINDS);
    }
}
