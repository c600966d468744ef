//! Runs of `VariableDelay`, by every kernel of f64 that has no table, over rings of 8, 16 and 64.
//!
//! A line is a letter and three words: `o`, the kernel (0 `CubicFarrow`, 1 `Farrow8`, else
//! `Lagrange` of so many taps), the maximum delay and the margin, opens a reader; `p`, the sample,
//! the delay and 0, is a call; `r` and three zeros a reset. Beside each stand the answer (0 for `o`
//! and `r`) and `write_index` afterwards.
//!
//! For each kernel and ring there are two runs, long enough to go round the ring: a first call whose
//! fraction is 1, 11 plain ones, and then every kind of sample and delay, refused ones too. They
//! are drawn by the generator, for each reader from a seed of its own.

use crate::random::Random;
use crate::List;
use wow_dsp::{CubicFarrow, Farrow8, Kernel, Lagrange, VariableDelay};

/// The maximum delay and the margin: rings of 8, 16, 16, 64 and 64.
const SETTINGS: [(usize, usize); 5] = [(0, 0), (1, 0), (2, 3), (25, 0), (40, 8)];

const END: f64 = 68_719_476_736.0; // 2^36

pub fn write(list: &mut List) {
    for (n, &settings) in SETTINGS.iter().enumerate() {
        runs(list, n as u64, 0, settings, CubicFarrow);
        runs(list, n as u64, 1, settings, Farrow8);
        runs(list, n as u64, 2, settings, Lagrange::<2>);
        runs(list, n as u64, 4, settings, Lagrange::<4>);
        runs(list, n as u64, 6, settings, Lagrange::<6>);
        runs(list, n as u64, 8, settings, Lagrange::<8>);
        runs(list, n as u64, 10, settings, Lagrange::<10>);
        runs(list, n as u64, 12, settings, Lagrange::<12>);
        runs(list, n as u64, 14, settings, Lagrange::<14>);
        runs(list, n as u64, 16, settings, Lagrange::<16>);
    }
}

/// Two runs on one reader, a reset after each: the largest numbers are for the second alone, since
/// most answers are infinities and NaNs once they are in the ring.
fn runs<K: Kernel>(list: &mut List, n: u64, kernel: u64, (maximum, margin): (usize, usize), k: K) {
    let mut random = Random::new(1 + n + 16 * kernel);
    let mut reader = VariableDelay::new(maximum, margin, k);
    list.line('o', [kernel, maximum as u64, margin as u64], 0, 0);
    for largest in [false, true] {
        let ring = reader.buffer.len() as i64;
        for call in 0..24 + ring {
            let held = (reader.write_index + 1).min(ring);
            let (sample, delay) = match call {
                0 => (fine(&mut random), 1e-300),
                1..12 => (fine(&mut random), near(&mut random, held)),
                _ => (sample(&mut random, largest), delay(&mut random, held)),
            };
            let answer = reader.process_sample(sample, delay);
            let words = [sample.to_bits(), delay.to_bits(), 0];
            list.line('p', words, crate::pattern(answer), reader.write_index as u64);
        }
        reader.reset();
        list.line('r', [0; 3], 0, reader.write_index as u64);
    }
}

/// A whole multiple of 2^-23 from -1 to 1.
pub fn fine(random: &mut Random) -> f64 {
    random.within(-1 << 23, 1 << 23) as f64 / (1 << 23) as f64
}

/// A whole multiple of 2^-16, from 0 to a little past the oldest sample that is held.
pub fn near(random: &mut Random, held: i64) -> f64 {
    random.within(0, (held + 1) << 16) as f64 / 65536.0
}

pub fn sample(random: &mut Random, largest: bool) -> f64 {
    match random.within(0, 31) {
        0 => 0.0,
        1 | 2 => -0.0,
        3 => f64::from_bits(random.word() >> 12),
        4 => -5e-324,
        5 => fine(random) * f64::MIN_POSITIVE,
        6 => fine(random) * 1e300,
        7 => f64::NAN,
        8 => f64::INFINITY.copysign(fine(random)),
        9..=20 if largest => f64::MAX.copysign(fine(random)),
        9..=20 => random.unit() - 0.5,
        _ => fine(random),
    }
}

pub fn delay(random: &mut Random, held: i64) -> f64 {
    let whole = random.within(0, held + 3) as f64;
    let pick = random.within(0, 3) as usize;
    match random.within(0, 31) {
        0 => 0.0,
        1 => -0.0,
        2..=4 => whole,
        5..=7 => whole + 0.5,
        8 => whole.next_up(),
        9 => whole.next_down().abs(),
        10 | 11 => [1e-300, 5e-324, 1e-17, f64::EPSILON][pick],
        12 => held as f64 + random.unit() * 100.0,
        13 => [END, END.next_down(), END - 0.5, END - whole][pick],
        14 => [f64::NAN, f64::INFINITY, -f64::INFINITY, -f64::MAX][pick],
        15 => [-5e-324, -1e-300, -1.0, -whole - 0.5][pick],
        16..=22 => random.unit() * held as f64,
        _ => near(random, held),
    }
}
