//! T1. Tables of many settings, element by element beside the original's, by the types of host/;
//! settings out of range and tables of another length, which are refused and leave every element.

use crate::context::Context;
use crate::random::Random;
use crate::sinc::{Sinc, Way};

#[derive(Clone, Copy, Debug)]
pub struct Settings {
    pub taps: usize,
    pub phases: usize,
    pub cutoff: f64,
    pub beta: f64,
}

/// Settings in range, their ends among them; mostly of few phases, so that many can be compared.
pub fn settings(random: &mut Random, large: bool) -> Settings {
    let taps = match random.within(0, 9) {
        0 => random.pick(&[4, 6, 126, 128]),
        1 => random.pick(&[32, 80, 96]),
        _ => 2 * random.within(2, 64) as usize,
    };
    let phases = match random.within(0, 9) {
        _ if large => random.pick(&[2048, 4095, 4096]),
        0 => 2,
        1 => random.within(3, 512) as usize,
        _ => random.within(2, 64) as usize,
    };
    let cutoff = match random.within(0, 5) {
        0 => random.pick(&[1.0, 0.0009765625, 0.0009765625f64.next_up(), 1.0f64.next_down()]),
        1 => 0.995 / (1.0 + random.unit()),
        2 => 0.5,
        _ => 0.0009765625 + random.unit() * (1.0 - 0.0009765625),
    };
    let beta = match random.within(0, 5) {
        0 => random.pick(&[0.0, -0.0, 20.0, 5e-324, 1e-9]),
        1 => random.pick(&[12.0, 14.0, 16.0]),
        _ => random.unit() * 20.0,
    };
    Settings { taps, phases, cutoff, beta }
}

pub fn same<T: Sinc>(what: &str, settings: impl std::fmt::Debug, right: &[T], table: &[T]) {
    number::<T>(what, (&settings, right.len(), table.len()), 0, (right.len() != table.len()) as u8);
    if let Some(k) = (0..right.len()).find(|&k| right[k].pattern() != table[k].pattern()) {
        println!("DIFFERENCE in the table of {} by {what}, at element {k}: {settings:?}", T::NAME);
        println!("  Rust {:X}, Fugnadri {:X}", right[k].pattern(), table[k].pattern());
        std::process::exit(1)
    }
}

pub fn number<T: Sinc>(what: &str, settings: impl std::fmt::Debug, due: u8, given: u8) {
    if due != given {
        println!("DIFFERENCE in {} by {what}: {settings:?}: refusal {due} is due, {given} was given", T::NAME);
        std::process::exit(1)
    }
}

/// A table of host/'s, in either way.
fn made<T: Sinc>(what: &str, settings: impl std::fmt::Debug, table: Result<Vec<T>, u8>) -> Vec<T> {
    number::<T>(what, settings, 0, table.as_ref().err().copied().unwrap_or(0));
    table.unwrap_or_default()
}

/// Tables of both builders; how many elements were compared.
fn built<T: Sinc>(random: &mut Random, large: bool) -> u64 {
    let s @ Settings { taps, phases, cutoff, beta } = settings(random, large);
    let table = made("new", s, T::host_table(Way::any(random), taps, phases, cutoff, beta));
    same("new", s, &T::table(taps, phases, cutoff, beta), &table);

    let max_rate = if random.within(0, 4) == 0 { random.pick(&[1.0, 2.0]) } else { 1.0 + random.unit() };
    let passband = if random.within(0, 4) == 0 { random.pick(&[1.0, 0.995]) } else { 0.002 + 0.998 * random.unit() };
    let at = (s, max_rate, passband);
    let table = made("for_max_rate", at, T::host_table_for_max_rate(Way::any(random), taps, phases, max_rate, passband, beta));
    same("for_max_rate", at, &T::table_for_max_rate(taps, phases, max_rate, passband, beta), &table);
    2 * table.len() as u64
}

/// Settings with one out of range, or another length: the number that is due, and nothing written.
fn refused<T: Sinc>(random: &mut Random) {
    let mut s = settings(random, false);
    s.phases = s.phases.min(16);
    let mut length = (s.phases + 1) * s.taps;
    let (mut max_rate, mut passband, mut rate_only) = (1.25, 0.995, false);
    let due = match random.within(0, 7) {
        0 => {
            s.taps = random.pick(&[0, 1, 2, 3, 5, 7, 127, 129, 130, usize::MAX - 1]);
            1
        }
        1 => {
            s.phases = random.pick(&[0, 1, 4097, usize::MAX]);
            1
        }
        2 => {
            s.cutoff = random.pick(&[0.0, -0.0, -1.0, 0.0009765625f64.next_down(), 1.0f64.next_up(), f64::NAN, f64::INFINITY, 5e-324]);
            passband = random.pick(&[1e-3 / 2.0, 5e-324]);
            1
        }
        3 => {
            s.beta = random.pick(&[-1.0, -5e-324, 20.0f64.next_up(), f64::NAN, f64::INFINITY, f64::NEG_INFINITY]);
            1
        }
        4 => {
            rate_only = true;
            max_rate = random.pick(&[1.0f64.next_down(), 2.0f64.next_up(), 0.0, -1.0, f64::NAN, f64::INFINITY]);
            1
        }
        5 => {
            rate_only = true;
            passband = random.pick(&[0.0, -0.0, -1.0, 1.0f64.next_up(), f64::NAN, f64::INFINITY, 1e-3 / 2.0]);
            1
        }
        _ => {
            length = random.pick(&[0, 1, length - 1, length + 1, length + s.taps, length - s.taps]);
            2
        }
    };
    let before: Vec<T> = (0..length).map(|_| T::of(random.unit())).collect();
    let mut table = before.clone();
    if !rate_only {
        number::<T>("new", (s, length), due, T::build(s.taps, s.phases, s.cutoff, s.beta, &mut table));
    }
    let at = (s, max_rate, passband, length);
    number::<T>("for_max_rate", at, due, T::build_for_max_rate(s.taps, s.phases, max_rate, passband, s.beta, &mut table));
    same("a refusal", at, &before, &table);
    // host/ lends the right length itself
    if due == 1 {
        for way in [Way::Strict, Way::Lenient] {
            if !rate_only {
                number::<T>("new of host/", (way, s), 1, T::host_table(way, s.taps, s.phases, s.cutoff, s.beta).err().unwrap_or(0));
            }
            let given = T::host_table_for_max_rate(way, s.taps, s.phases, max_rate, passband, s.beta);
            number::<T>("for_max_rate of host/", (way, at), 1, given.err().unwrap_or(0));
        }
    }
}

fn both<T: Sinc>(context: &mut Context) {
    let large = context.round % 16 == 0;
    let mut elements = built::<T>(&mut context.random, large);
    for _ in 0..12 {
        elements += built::<T>(&mut context.random, false);
    }
    context.count(T::NAME, "elements of tables", elements, None);
    for _ in 0..256 {
        refused::<T>(&mut context.random);
    }
    context.count(T::NAME, "builds refused", 256, None);
}

pub fn run(context: &mut Context) {
    both::<f64>(context);
    both::<f32>(context);
}
