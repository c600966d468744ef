//! Settings, samples and delays for the readers, and positions for the kernels.

use crate::format::BINARY64;
use crate::random::Random;

/// 2^36: the largest delay, position and count.
pub const END: f64 = 68_719_476_736.0;

/// A maximum delay and a margin whose ring has 8 to 2^16 places, each length as often as another.
pub fn settings(random: &mut Random) -> (usize, usize) {
    let length = 1i64 << random.within(3, 16);
    // the least and the most that is raised to this length
    let need = random.within(if length == 8 { 8 } else { length / 2 + 1 }, length);
    let margin = random.within(0, (need - 8) / 2).min(random.within(0, 64));
    ((need - 8 - 2 * margin) as usize, margin as usize)
}

/// A number of 24 digits from -1 to 1, as a recording has it.
pub fn plain(random: &mut Random) -> f64 {
    random.within(-1 << 23, 1 << 23) as f64 / (1 << 23) as f64
}

/// Zeros, subnormals, the largest numbers, infinities, NaNs, any pattern, among plain ones.
pub fn hostile(random: &mut Random) -> f64 {
    match random.within(0, 11) {
        0 => random.pick(&[0.0, -0.0]),
        1 => f64::from_bits(random.word() & 0x800F_FFFF_FFFF_FFFF),
        2 => random.pick(&[f64::MAX, -f64::MAX, f64::MIN_POSITIVE, 1e308, -1e308]),
        3 => random.pick(&[f64::INFINITY, f64::NEG_INFINITY, f64::NAN]),
        4 => f64::from_bits(random.pattern(&BINARY64)),
        _ => plain(random),
    }
}

/// A delay of every kind; among hostile ones also those that are refused.
pub fn delay(random: &mut Random, length: usize, hostile: bool) -> f64 {
    let length = length as i64;
    let whole = random.within(0, length + 4) as f64;
    match random.within(0, if hostile { 15 } else { 9 }) {
        0 => random.pick(&[0.0, -0.0]),
        1 => whole,
        2 | 3 => random.within(0, (length + 4) << 16) as f64 / 65536.0,
        4 => random.pick(&[1e-300, f64::MIN_POSITIVE, 5e-324, 1e-17, whole.next_up(), whole.next_down().max(0.0)]),
        5 => length as f64 * (1.0 + 3.0 * random.unit()),
        6 => random.pick(&[END, END.next_down(), END - 1.0, END / 2.0]),
        10 => random.pick(&[f64::NAN, f64::INFINITY, f64::NEG_INFINITY, -5e-324, -1.0, -END]),
        11 => random.pick(&[END.next_up(), END * 2.0, f64::MAX]),
        12 => f64::from_bits(random.pattern(&BINARY64)),
        _ => random.unit() * length as f64,
    }
}

/// A position about a slice: inside, before, past, on whole numbers and beside them, anywhere.
pub fn position(random: &mut Random, length: usize) -> f64 {
    let length = length as i64;
    let whole = random.within(-20, length + 20) as f64;
    match random.within(0, 7) {
        0 => random.pick(&[0.0, -0.0, 1e-300, -1e-300, END, -END, END - 0.5, 0.5 - END]),
        1 => random.pick(&[whole, whole.next_up(), whole.next_down()]),
        2 => random.pick(&[END.next_up(), -END.next_up(), f64::NAN, f64::INFINITY, f64::NEG_INFINITY]),
        3 => f64::from_bits(random.pattern(&BINARY64)),
        4 => random.within(-20 << 16, (length + 20) << 16) as f64 / 65536.0,
        _ => (random.unit() * (length + 8) as f64) - 4.0,
    }
}
