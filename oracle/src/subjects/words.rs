//! 64-bit words, beside `wrapping_mul` and `<<`.

use crate::context::Context;
use crate::pair::{Kind, Pair};
use crate::shape::Shape;

const WRAPPING_MUL: Pair<2> = Pair {
    name: "wrapping_mul",
    takes: [Shape::Word; 2],
    gives: Shape::Word,
    rust: |[a, b]| a.wrapping_mul(b),
    ports: &[|[a, b]| boundary::wrapping_mul(a, b)],
    // the product of the lower halves
    tempting: Some(|[a, b]| (a & 0xFFFF_FFFF) * (b & 0xFFFF_FFFF)),
};

/// `<<` below 64. From 64 on Rust has no answer; every digit is lost.
const SHL: Pair<2> = Pair {
    name: "shl",
    rust: |[a, n]| if n < 64 { a << n } else { 0 },
    ports: &[|[a, n]| boundary::shl(a, n)],
    // the count modulo 64, as the processor has it
    tempting: Some(|[a, n]| a.wrapping_shl(n as u32)),
    ..WRAPPING_MUL
};

const FACTORS: [Kind<2>; 4] = [
    ("any words", |r| [r.word(), r.word()]),
    ("few digits set", |r| [0; 2].map(|_| r.word() & r.word() & r.word())),
    ("most digits set", |r| [0; 2].map(|_| r.word() | r.word() | r.word())),
    ("words of any length", |r| [0; 2].map(|_| r.word() >> r.within(0, 63))),
];

const SHIFTS: [Kind<2>; 2] = [
    ("any word, counts to 80", |r| [r.word(), r.within(0, 80) as u64]),
    ("words of any length, counts to 130", |r| [r.word() >> r.within(0, 63), r.within(0, 130) as u64]),
];

pub fn run(context: &mut Context) {
    if context.round == 0 {
        // every power of two and what lies beside it
        let words: Vec<u64> = (0..64).flat_map(|n| [(1u64 << n) - 1, 1 << n, (1 << n) + 1, !(1 << n)]).collect();
        let factors = words.iter().flat_map(|a| words.iter().map(|b| [*a, *b]));
        WRAPPING_MUL.compare(context, "powers of two and beside them", factors);
        let counts = (0..=130).chain([1 << 32, 1 << 63, u64::MAX]);
        let shifts = words.iter().flat_map(|a| counts.clone().map(|n| [*a, n]));
        SHL.compare(context, "every count to 130, and beyond", shifts);
    }
    WRAPPING_MUL.draw(context, &FACTORS);
    SHL.draw(context, &SHIFTS);
}
