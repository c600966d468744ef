//! The fused steps, beside `mul_add`.

use crate::context::Context;
use crate::format::{BINARY32, BINARY64};
use crate::inputs::specials;
use crate::pair::Pair;
use crate::shape::{bits32, bits64, f32_of, f64_of, Shape};
use crate::triples::{Width, KINDS};

const FUSED32: Pair<3> = Pair {
    name: "fused32",
    takes: [Shape::F32; 3],
    gives: Shape::F32,
    rust: |[a, b, c]| bits32(f32_of(a).mul_add(f32_of(b), f32_of(c))),
    ports: &[
        |[a, b, c]| bits32(boundary::fused32(f32_of(a), f32_of(b), f32_of(c))),
        |[a, b, c]| boundary::fused32_bits(a as u32, b as u32, c as u32) as u64,
    ],
    // a product and a sum in f64: rounds twice
    tempting: Some(|[a, b, c]| bits32((f32_of(a) as f64 * f32_of(b) as f64 + f32_of(c) as f64) as f32)),
};

const SINGLE: Width = Width {
    format: &BINARY32,
    product: |a, b| bits32((f32_of(a) as f64 * f32_of(b) as f64) as f32),
    edges: &[0, 1, 2, 22, 23, 24, 100, 103, 126, 127, 128, 150, 151, 152, 230, 252, 253, 254],
};

const FUSED64: Pair<3> = Pair {
    name: "fused64",
    takes: [Shape::F64; 3],
    gives: Shape::F64,
    rust: |[a, b, c]| bits64(f64_of(a).mul_add(f64_of(b), f64_of(c))),
    ports: &[
        |[a, b, c]| bits64(boundary::fused64(f64_of(a), f64_of(b), f64_of(c))),
        |[a, b, c]| boundary::fused64_bits(a, b, c),
    ],
    // a product and a sum: rounds twice
    tempting: Some(|[a, b, c]| bits64(f64_of(a) * f64_of(b) + f64_of(c))),
};

const DOUBLE: Width = Width {
    format: &BINARY64,
    product: |a, b| bits64(f64_of(a) * f64_of(b)),
    edges: &[0, 1, 2, 52, 53, 54, 500, 572, 573, 574, 1023, 1472, 1473, 1474, 1972, 1973, 1974, 2000, 2045, 2046],
};

pub fn run(context: &mut Context) {
    for (pair, width) in [(FUSED32, SINGLE), (FUSED64, DOUBLE)] {
        if context.round == 0 {
            let list: Vec<u64> = specials(width.format).collect();
            let triples = list.iter().flat_map(|a| list.iter().flat_map(|b| list.iter().map(|c| [*a, *b, *c])));
            pair.compare(context, "every triple of special values", triples);
        }
        for (kind, input) in KINDS {
            let inputs = context.draw(|r| input(&width, r));
            pair.compare(context, kind, inputs);
        }
    }
}
