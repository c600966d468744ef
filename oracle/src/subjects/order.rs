//! max, min and clamp, beside Rust's, with the bounds that 000 and 001 hand in.

use crate::context::Context;
use crate::format::{BINARY32, BINARY64};
use crate::inputs::specials;
use crate::pair::{Kind, Pair};
use crate::shape::{bits32, bits64, f32_of, f64_of, Shape};

/// `used!(F64, max, max, 0.0)` is x.max(0.0) beside boundary::max(x, 0.0). The bounds are constants
/// here as they are there: where two numbers compare equal, Rust leaves open which of them comes.
macro_rules! used {
    ($shape:ident, $name:ident, $port:ident, $($bound:literal),*) => {
        Pair {
            name: concat!(stringify!($port), $(" ", stringify!($bound)),*),
            takes: [Shape::$shape],
            gives: Shape::$shape,
            rust: |[x]| pattern!($shape, float!($shape, x).$name($($bound),*)),
            ports: &[|[x]| pattern!($shape, boundary::$port(float!($shape, x), $($bound),*))],
            tempting: None,
        }
    };
}
macro_rules! float {
    (F64, $x:expr) => {
        f64_of($x)
    };
    (F32, $x:expr) => {
        f32_of($x)
    };
}
macro_rules! pattern {
    (F64, $x:expr) => {
        bits64($x)
    };
    (F32, $x:expr) => {
        bits32($x)
    };
}

const DOUBLE: [Pair<1>; 9] = [
    used!(F64, max, max, 0.0),
    used!(F64, max, max, 0.001),
    used!(F64, max, max, 1.0),
    used!(F64, min, min, 1.0),
    used!(F64, clamp, clamp, 0.0, 1.0),
    used!(F64, clamp, clamp, -1.0, 1.0),
    used!(F64, clamp, clamp, 0.025, 2.0),
    used!(F64, clamp, clamp, 0.5, 3.0),
    used!(F64, clamp, clamp, 1.0, 1.02),
];

const SINGLE: [Pair<1>; 2] = [used!(F32, min, min_f32, 1.0), used!(F32, clamp, clamp_f32, 0.0, 1.0)];

const DOUBLES: [Kind<1>; 2] = [
    ("any pattern", |r| [r.pattern(&BINARY64)]),
    ("about the bounds", |r| {
        let field = r.within(1023 - 12, 1023 + 3);
        [r.at(&BINARY64, field)]
    }),
];

const SINGLES: [Kind<1>; 2] = [
    ("any pattern", |r| [r.pattern(&BINARY32)]),
    ("about the bounds", |r| {
        let field = r.within(127 - 12, 127 + 3);
        [r.at(&BINARY32, field)]
    }),
];

pub fn run(context: &mut Context) {
    for (pairs, format, kinds) in [(&DOUBLE[..], &BINARY64, &DOUBLES), (&SINGLE[..], &BINARY32, &SINGLES)] {
        for pair in pairs {
            if context.round == 0 {
                pair.compare(context, "every special value", specials(format).map(|x| [x]));
            }
            pair.draw(context, kinds);
        }
    }
}
