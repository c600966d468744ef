//! O3. Calls that make NaNs on purpose: each answers one, and it must be the one that is handed out.
//!
//! They come from an argument of any pattern, from infinities and NaNs in what is lent, and from finite samples whose
//! readings overflow: two sets of a bank that both read an infinity differ by a NaN.

mod numbers;
mod oversampled;
mod quality;
mod readers;
mod stretches;

use super::{
    draw::{NANS, NANS32},
    value::Value,
};
use std::collections::BTreeMap;

/// How many NaNs each export has answered.
#[derive(Default)]
pub struct Made(BTreeMap<String, u64>);

/// Makes them all, and says how many they were.
pub fn run() {
    let mut made = Made::default();
    let infinities = [f64::INFINITY, f64::NEG_INFINITY];
    for odd in NANS.map(f64::from_bits) {
        made.numbers(odd);
    }
    for odd in NANS32.map(f32::from_bits) {
        made.numbers32(odd);
        made.file(odd);
    }
    for odd in NANS.map(f64::from_bits).into_iter().chain(infinities) {
        made.readers(odd);
        made.filters(odd);
        made.oversampled(odd);
        made.stretches(odd);
        made.sinc("", odd, 1.0, -1.0);
    }
    let bank = quality::bank(1.04);
    for odd in NANS32.map(f32::from_bits).into_iter().chain(infinities.map(|x| x as f32)) {
        made.sinc("_f32", odd, 1.0, -1.0);
        (0..4).for_each(|quality| made.quality(&bank, odd, quality));
    }
    made.overflow(&bank);
    println!("{} NaNs on purpose, by {} exports", made.0.values().sum::<u64>(), made.0.len());
}

fn fault(name: &str, what: &str) -> ! {
    println!("FAULT in fugnadri_{name}, on purpose: {what}");
    std::process::exit(1)
}

impl Made {
    fn nan<T: Value>(&mut self, name: &str, value: T) {
        let (bits, four) = (value.bits(), size_of::<T>() == 4);
        let is = if four { f32::from_bits(bits as u32).is_nan() } else { f64::from_bits(bits).is_nan() };
        if !is || value.odd() {
            fault(name, &format!("{bits:X} and not the NaN that is handed out"));
        }
        *self.0.entry(name.into()).or_default() += 1;
    }

    /// A call that is accepted, with its value through the last argument.
    fn by<T: Value>(&mut self, name: &str, call: impl FnOnce(&mut T) -> u8) {
        let mut value = T::of(0);
        match call(&mut value) {
            0 => self.nan(name, value),
            number => fault(name, &format!("refused by {number}")),
        }
    }
}
