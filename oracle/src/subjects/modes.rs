//! W5. The builders at the C boundary with and without a mode of the sum called I0, in both widths and for a bank's set:
//! ported, element by element beside the original's tables; in full beside 000's lines with 64 terms (full.rs). What
//! tells are the elements in which the two modes differ. A number that names no mode is refused and leaves every element.

use super::tables::{number, same, settings, Settings};
use crate::context::Context;
use crate::full;
use crate::random::Random;
use crate::sinc::Sinc;
use wow_dsp::SincBankF32;

const PORTED: u8 = 0;
const FULL: u8 = 1;

/// The full mode's table in a width.
fn in_full<T: Sinc>(taps: usize, phases: usize, cutoff: f64, beta: f64) -> Vec<T> {
    full::table(taps, phases, cutoff, beta).into_iter().map(T::of).collect()
}

/// What a builder leaves in a table of anything.
fn filled<T: Sinc>(what: &str, s: impl std::fmt::Debug, length: usize, build: impl Fn(&mut [T]) -> u8) -> Vec<T> {
    let mut table = vec![T::of(f64::NAN); length];
    number::<T>(what, s, 0, build(&mut table));
    table
}

/// How many elements the two modes have apart.
fn apart<T: Sinc>(ported: &[T], full: &[T]) -> u64 {
    ported.iter().zip(full).filter(|(a, b)| a.pattern() != b.pattern()).count() as u64
}

/// Tables of all builders: how many elements were compared in the ported mode and in the full one, and how many tell.
fn built<T: Sinc>(random: &mut Random) -> [u64; 3] {
    let s @ Settings { taps, phases, cutoff, beta } = settings(random, false);
    let length = (phases + 1) * taps;
    let ported = T::table(taps, phases, cutoff, beta);
    let table = filled::<T>("build", s, length, |t| T::build(taps, phases, cutoff, beta, t));
    same("build", s, &ported, &table);
    let table = filled::<T>("build_in, ported", s, length, |t| T::build_in(taps, phases, cutoff, beta, PORTED, t));
    same("build_in, ported", s, &ported, &table);
    let right = in_full::<T>(taps, phases, cutoff, beta);
    let table = filled::<T>("build_in, full", s, length, |t| T::build_in(taps, phases, cutoff, beta, FULL, t));
    same("build_in, full", s, &right, &table);
    let mut telling = apart(&ported, &right);

    let (rate, passband) = (1.0 + random.unit(), 0.002 + 0.998 * random.unit());
    let at = (s, rate, passband);
    let rated = |mode: u8| move |t: &mut [T]| T::build_for_max_rate_in(taps, phases, rate, passband, beta, mode, t);
    let ported = T::table_for_max_rate(taps, phases, rate, passband, beta);
    let table = filled::<T>("build_for_max_rate", at, length, |t| {
        T::build_for_max_rate(taps, phases, rate, passband, beta, t)
    });
    same("build_for_max_rate", at, &ported, &table);
    same("build_for_max_rate_in, ported", at, &ported, &filled("build_for_max_rate_in", at, length, rated(PORTED)));
    let right = in_full::<T>(taps, phases, passband / rate, beta);
    same("build_for_max_rate_in, full", at, &right, &filled("build_for_max_rate_in", at, length, rated(FULL)));
    telling += apart(&ported, &right);
    [4 * length as u64, 2 * length as u64, telling]
}

/// A number that names no mode: 1, whatever else holds, and nothing is written.
fn refused<T: Sinc>(random: &mut Random) {
    let s @ Settings { taps, phases, cutoff, beta } = settings(random, false);
    let length = if random.within(0, 3) == 0 { 7 } else { (phases + 1) * taps };
    let before: Vec<T> = (0..length).map(|_| T::of(random.unit())).collect();
    let mut table = before.clone();
    let mode = random.within(2, 255) as u8;
    number::<T>("build_in", (s, mode), 1, T::build_in(taps, phases, cutoff, beta, mode, &mut table));
    let given = T::build_for_max_rate_in(taps, phases, 1.25, 0.995, beta, mode, &mut table);
    number::<T>("build_for_max_rate_in", (s, mode), 1, given);
    same("a refusal", (s, mode), &before, &table);
}

fn both<T: Sinc>(context: &mut Context) {
    let mut sums = [0; 3];
    for _ in 0..6 {
        let more = built::<T>(&mut context.random);
        sums = [0, 1, 2].map(|k| sums[k] + more[k]);
    }
    context.count(T::NAME, "elements in the ported mode", sums[0], None);
    context.count(T::NAME, "elements in the full mode", sums[1], Some(sums[2]));
    for _ in 0..64 {
        refused::<T>(&mut context.random);
    }
    context.count(T::NAME, "modes refused", 128, None);
}

/// A bank of one set, by all four of its builders.
fn set(context: &mut Context) {
    // below 1.02 a bank has one set, of its own rate
    let max = 1.0 + 0.0199 * context.random.unit();
    let bank = SincBankF32::for_max_rate(max);
    let [theirs] = &bank.sets[..] else { panic!("one set at {max}") };
    let rate = theirs.rate;
    let ported: Vec<f32> = [&theirs.normal.table, &theirs.hq.table, &theirs.ultra.table].into_iter().flatten().copied().collect();
    let part = |taps, phases, beta| in_full::<f32>(taps, phases, 0.995 / rate, beta);
    let right = [part(80, 2048, 12.0), part(96, 4096, 14.0), part(128, 4096, 16.0)].concat();
    let length = ported.len();
    let build = |what: &str, call: &dyn Fn(&mut [f32]) -> u8, right: &[f32]| {
        same(what, max, right, &filled(what, max, length, call));
    };
    build("bank_build", &|t| boundary::bank_build(max, t), &ported);
    build("bank_build_set", &|t| boundary::bank_build_set(rate, t), &ported);
    build("bank_build_in, ported", &|t| boundary::bank_build_in(max, PORTED, t), &ported);
    build("bank_build_set_in, ported", &|t| boundary::bank_build_set_in(rate, PORTED, t), &ported);
    build("bank_build_in, full", &|t| boundary::bank_build_in(max, FULL, t), &right);
    build("bank_build_set_in, full", &|t| boundary::bank_build_set_in(rate, FULL, t), &right);
    context.count("bank", "elements in the ported mode", 4 * length as u64, None);
    context.count("bank", "elements in the full mode", 2 * length as u64, Some(2 * apart(&ported, &right)));
    let mut few = [0.5f32; 7];
    for mode in [2, 3, 255] {
        let numbers = [boundary::bank_build_in(max, mode, &mut few), boundary::bank_build_set_in(rate, mode, &mut few)];
        if numbers != [1; 2] || few != [0.5; 7] {
            println!("DIFFERENCE in the bank: mode {mode} is refused by {numbers:?}, and 1 is due");
            std::process::exit(1)
        }
    }
    context.count("bank", "modes refused", 6, None);
}

pub fn run(context: &mut Context) {
    both::<f64>(context);
    both::<f32>(context);
    if context.round % 16 == 0 {
        set(context);
    }
}
