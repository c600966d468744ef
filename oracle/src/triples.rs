//! Hostile triples for a fused step a * b + c, over the format.

use crate::format::Format;
use crate::random::Random;

pub struct Width {
    pub format: &'static Format,
    /// The product, rounded to the format.
    pub product: fn(u64, u64) -> u64,
    /// Exponents' fields at which a way of computing may change.
    pub edges: &'static [i64],
}

pub const KINDS: [(&str, fn(&Width, &mut Random) -> [u64; 3]); 8] = [
    ("any patterns", |w, r| [0; 3].map(|_| r.pattern(w.format))),
    ("exponents where paths part", |w, r| [0; 3].map(|_| r.pick(w.edges)).map(|field| r.at(w.format, field))),
    ("sum and product of one size", one_size),
    ("the product cancelled", cancelled),
    ("product half a unit of the sum", half_a_unit),
    ("product on a midpoint, sum tiny", midpoint),
    ("subnormal results", subnormal),
    ("about the largest number", largest),
];

impl Width {
    /// The field of 1 and the digits below it, to reckon with.
    fn sizes(&self) -> (i64, i64) {
        (self.format.bias as i64, self.format.digits as i64)
    }
}

fn one_size(w: &Width, r: &mut Random) -> [u64; 3] {
    let (bias, digits) = w.sizes();
    let (a, b) = (r.within(-digits, digits), r.within(-digits, digits));
    let c = a + b + r.within(-digits - 3, digits + 3);
    [a, b, c].map(|exponent| r.at(w.format, bias + exponent))
}

/// c is the product's opposite, or at most three places beside it.
fn cancelled(w: &Width, r: &mut Random) -> [u64; 3] {
    let (bias, _) = w.sizes();
    let [a, b] = [0; 2].map(|_| r.within(bias * 2 / 3, bias * 4 / 3)).map(|field| r.at(w.format, field));
    let p = (w.product)(a, b);
    let opposite = w.format.pattern(!w.format.negative(p), w.format.field(p), w.format.digits_of(p));
    [a, b, r.beside(opposite, 3)]
}

/// a * b is half a unit of c's last digit, or beside it by a few digits of either factor.
fn half_a_unit(w: &Width, r: &mut Random) -> [u64; 3] {
    let (bias, digits) = w.sizes();
    let c = r.within(digits + 3, 2 * bias - 1);
    let half = c - bias - digits - 1;
    let a = r.within(-20, 20);
    let [a, b] = [a, half - a].map(|exponent| {
        let power = w.format.pattern(r.coin(), (bias + exponent).max(1) as u64, 0);
        let off = 1 << r.within(0, digits / 2);
        power.wrapping_add_signed(r.pick(&[0, off, -off]))
    });
    [a, b, r.at(w.format, c)]
}

/// a times a small odd number lies on a midpoint or beside one, and c only says to which side the value leans.
fn midpoint(w: &Width, r: &mut Random) -> [u64; 3] {
    let (bias, digits) = w.sizes();
    let a = bias + r.within(-bias / 4, bias / 4);
    let odd = r.within(0, 40) as u64 * 2 + 1;
    let length = 63 - odd.leading_zeros();
    let below_one = (odd << (w.format.digits - length)) & w.format.all_digits();
    let b = w.format.pattern(r.coin(), w.format.bias + length as u64, below_one);
    let c = a - digits - r.within(2, bias / 2);
    [r.at(w.format, a), b, r.at(w.format, c)]
}

fn subnormal(w: &Width, r: &mut Random) -> [u64; 3] {
    let (bias, digits) = w.sizes();
    let a = r.within(-bias * 3 / 4, -bias / 4);
    let b = 1 - bias - digits - a + r.within(-4, digits + 6);
    let c = match r.coin() {
        true => w.format.pattern(r.coin(), 0, r.word() & w.format.all_digits() >> r.within(0, digits)),
        false => {
            let field = r.within(0, digits + 4);
            r.at(w.format, field)
        }
    };
    [r.at(w.format, bias + a), r.at(w.format, bias + b), c]
}

fn largest(w: &Width, r: &mut Random) -> [u64; 3] {
    let (bias, digits) = w.sizes();
    let a = r.within(1, bias - 1);
    let b = bias - a + r.within(-digits - 3, 1);
    let c = match r.coin() {
        true => w.format.pattern(r.coin(), w.format.top() - 1, w.format.all_digits() - (r.word() & 3)),
        false => {
            let field = 2 * bias - r.within(0, digits + 3);
            r.at(w.format, field)
        }
    };
    [r.at(w.format, bias + a), r.at(w.format, bias + b), c]
}
