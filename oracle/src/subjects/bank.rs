//! T3 to T5. The bank: how many sets, each set's rate, every element of every set by both ways of
//! host/, and which sets a rate reads, beside 000's lines.

use crate::banks::{self, Bank};
use crate::context::Context;
use crate::hosts::panicked;
use crate::random::Random;
use crate::shape::{bits32, bits64};
use boundary::Choice;
use host::{lenient, strict};

/// 163920 + 393312 + 524416.
const SET: usize = 1_081_648;

fn stop(what: &str, rest: impl std::fmt::Debug) -> ! {
    println!("DIFFERENCE in the bank, {what}: {rest:?}");
    std::process::exit(1)
}

/// Every set of a bank, and the lengths and rates; how many elements.
fn elements(bank: &Bank) -> u64 {
    let (rust, max) = (&bank.rust, bank.max_rate);
    let whole = |sets: &[f32]| sets.len() == SET * rust.sets.len();
    if boundary::bank_steps(max) != rust.sets.len() || !whole(bank.sets()) || bank.lenient.as_ref().is_some_and(|b| !whole(b.sets())) {
        stop("number of sets", (max, rust.sets.len(), boundary::bank_steps(max)));
    }
    let lenient = bank.lenient.as_ref().map_or(&[][..], |bank| bank.sets());
    let ours = bank.sets().chunks(SET).chain(lenient.chunks(SET));
    for (i, (theirs, ours)) in rust.sets.iter().cycle().zip(ours).enumerate() {
        let i = i % rust.sets.len();
        if bits64(theirs.rate) != bits64(boundary::bank_set_rate(max, i)) {
            stop("rate of a set", (max, i, theirs.rate, boundary::bank_set_rate(max, i)));
        }
        let right = theirs.normal.table.iter().chain(&theirs.hq.table).chain(&theirs.ultra.table);
        if let Some(k) = right.zip(ours).position(|(a, b)| bits32(*a) != bits32(*b)) {
            stop("element of a set", (max, i, k, ours[k]));
        }
    }
    (bank.sets().len() + lenient.len()) as u64
}

/// Set lengths and rates of banks that are not built: the sets' rates by 000's lines.
fn rates(max: f64) -> Vec<f64> {
    let steps = ((max - 1.0) / 0.02).ceil().max(1.0) as usize;
    (1..=steps).map(|index| 1.0 + (max - 1.0) * index as f64 / steps as f64).collect()
}

/// 000's SincBankF32::sample down to what is read.
fn choice(max: f64, requested: f64) -> Choice {
    let sets = rates(max);
    let rate = requested.clamp(1.0, max);
    let safe = sets.partition_point(|set| *set < rate).min(sets.len() - 1);
    let tighter = (safe + 1).min(sets.len() - 1);
    let lower = if safe == 0 { 1.0 } else { sets[safe - 1] };
    let blend = ((rate - lower) / (sets[safe] - lower)) as f32;
    let which = match () {
        _ if (sets[safe] - lower).abs() <= f64::EPSILON => 0,
        _ if blend <= f32::EPSILON => 0,
        _ if blend >= 1.0 - f32::EPSILON => 1,
        _ => 2,
    };
    Choice { safe, tighter, which, blend: blend.clamp(0.0, 1.0) }
}

fn max_rate(random: &mut Random) -> f64 {
    match random.within(0, 7) {
        0 => random.pick(&[1.0, 2.0, 1.02, 1.04, 1.0f64.next_up(), 2.0f64.next_down()]),
        1 => 1.0 + random.within(1, 50) as f64 * 0.02,
        2 => (1.0 + random.within(1, 50) as f64 * 0.02).next_down(),
        3 => 1.0 + random.unit() * 1e-9,
        4 => 1.0 + f64::EPSILON * random.within(0, 40) as f64,
        _ => 1.0 + random.unit(),
    }
}

fn rate(random: &mut Random, max: f64) -> f64 {
    let sets = rates(max);
    let own = sets[random.within(0, sets.len() as i64 - 1) as usize];
    match random.within(0, 9) {
        0 => random.pick(&[f64::INFINITY, f64::NEG_INFINITY, 0.0, -0.0, 1.0, max, f64::MAX, -1.0]),
        1 => own,
        2 => own.next_up(),
        3 => own.next_down(),
        4 => own + (random.unit() - 0.5) * 1e-8,
        5 => max.next_up(),
        _ => 1.0 + random.unit() * (max - 1.0),
    }
}

fn choices(context: &mut Context) {
    const MANY: u64 = 20000;
    let random = &mut context.random;
    for _ in 0..MANY {
        let max = max_rate(random);
        let r = rate(random, max);
        let (right, (number, given)) = (choice(max, r), boundary::bank_choose(max, r));
        // where one set alone is read, the blend and the other set do not matter to 000
        let same = number == 0
            && right.which == given.which
            && (right.safe, right.tighter) == (given.safe, given.tighter)
            && (right.which == 0 || bits32(right.blend) == bits32(given.blend));
        if !same || boundary::bank_steps(max) != rates(max).len() {
            stop("choice", (max, r, right, number, given));
        }
    }
    context.count("bank", "choices of sets", MANY, None);
}

/// Rates out of range and other lengths: nothing is written.
fn refused(context: &mut Context) {
    let random = &mut context.random;
    for bad in [f64::NAN, 1.0f64.next_down(), 2.0f64.next_up(), f64::INFINITY, f64::NEG_INFINITY, 0.0, -1.0] {
        let mut few = [0.5f32; 7];
        let chosen = [boundary::bank_choose(bad, 1.0), boundary::bank_choose(bad, f64::NAN)];
        let numbers = [boundary::bank_build(bad, &mut few), boundary::bank_build_set(bad, &mut few)];
        if numbers != [1; 2] || chosen != [(1, Choice::default()); 2] || few != [0.5; 7] || boundary::bank_steps(bad) != 0 || boundary::bank_length(bad) != 0 {
            stop("a rate out of range", (bad, numbers, chosen));
        }
    }
    for max in [1.0, 2.0, 1.0 + random.unit()] {
        if boundary::bank_choose(max, f64::NAN) != (7, Choice::default()) {
            stop("a rate that is a NaN", (max, boundary::bank_choose(max, f64::NAN)));
        }
    }
    for length in [0, 1, random.within(2, 1000) as usize, SET - 1, SET + 1] {
        let mut set = vec![0.5f32; length];
        let numbers = [boundary::bank_build_set(1.25, &mut set), boundary::bank_build(1.01, &mut set)];
        if numbers != [2; 2] || set.iter().any(|x| *x != 0.5) {
            stop("another length", (length, numbers));
        }
    }
    for bad in [f64::NAN, 1.0f64.next_down(), 2.0f64.next_up(), f64::INFINITY, 0.0] {
        let strict = strict::SincBankF32::for_max_rate(bad).err().map(|refusal| refusal.number());
        let lenient = panicked(|| lenient::SincBankF32::for_max_rate(bad)).err();
        if [strict, lenient] != [Some(1); 2] {
            stop("a rate out of range, by host/", (bad, strict, lenient));
        }
    }
    context.count("bank", "builds refused", 34, None);
    context.count("bank", "choices refused", 17, None);
}

pub fn run(context: &mut Context) {
    choices(context);
    refused(context);
    if context.round == 0 {
        let compared = banks::SMALL.map(|max| elements(banks::bank(max)));
        context.count("bank", "elements of sets", compared.iter().sum(), None);
    }
    if context.round == 8 {
        let compared = elements(banks::bank(banks::LARGE));
        context.count("bank", "elements of sets", compared, None);
    }
}
