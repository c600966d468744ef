//! The live comparison: the original and the static library on the same inputs, bit for bit.
//!
//! `main SEED ROUNDS SECONDS`: whole rounds over every subject, ROUNDS of them or, where SECONDS is
//! not 0, until so many seconds have passed. Prints what was compared and how many, and stops at the
//! first difference with exit status 1.

mod banks;
mod context;
mod delays;
mod engines;
mod format;
mod full;
mod hosts;
mod inputs;
mod kernels;
mod pair;
mod qualities;
mod random;
mod shape;
mod sinc;
mod triples;
mod subjects {
    pub mod bank;
    pub mod desks;
    pub mod filters;
    pub mod fused;
    pub mod integer_part;
    pub mod modes;
    pub mod modulation;
    pub mod narrow;
    pub mod order;
    pub mod oscillators;
    pub mod oversampled;
    pub mod patterns;
    pub mod quality;
    pub mod readers;
    pub mod returning;
    pub mod sinc;
    pub mod slices;
    pub mod square_root;
    pub mod stretches;
    pub mod stretches_f32;
    pub mod tables;
    pub mod told;
    pub mod words;
}

use context::Context;
use std::time::{Duration, Instant};

/// A file of subjects/ each. `run` compares one batch of every kind of input that it has.
const SUBJECTS: &[fn(&mut Context)] = &[
    subjects::patterns::run,
    subjects::order::run,
    subjects::narrow::run,
    subjects::fused::run,
    subjects::square_root::run,
    subjects::integer_part::run,
    subjects::words::run,
    subjects::slices::run,
    subjects::readers::run,
    subjects::told::run,
    subjects::stretches::run,
    subjects::stretches_f32::run,
    subjects::tables::run,
    subjects::modes::run,
    subjects::sinc::run,
    subjects::filters::run,
    subjects::oversampled::run,
    subjects::bank::run,
    subjects::quality::run,
    subjects::returning::run,
    subjects::desks::run,
    subjects::oscillators::run,
    subjects::modulation::run,
];

fn main() {
    std::process::exit(status())
}

/// What the program does, and the exit status that it ends with.
fn status() -> i32 {
    let word = |n: usize| -> u64 {
        let text = std::env::args().nth(n).expect("SEED ROUNDS SECONDS");
        text.parse().expect("a number")
    };
    let (seed, rounds, seconds) = (word(1), word(2), word(3));
    let start = Instant::now();
    let over = |round: u64| match seconds {
        0 => round >= rounds,
        _ => start.elapsed() >= Duration::from_secs(seconds),
    };
    let mut context = Context::new(seed);
    let mut told = Instant::now();
    while context.round == 0 || !over(context.round) {
        for subject in SUBJECTS {
            subject(&mut context);
        }
        context.round += 1;
        if told.elapsed() >= Duration::from_secs(60) {
            told = Instant::now();
            eprintln!("{:.0} s: {} rounds, {} compared, no difference", start.elapsed().as_secs_f64(), context.round, context.compared());
        }
    }
    context.report();
    println!("no difference: seed {seed}, {} rounds, {:.1} s", context.round, start.elapsed().as_secs_f64());
    0
}
