//! Tables of `WindowedSinc` and `WindowedSincF32`, and runs of `VariableDelay` and `VariableDelayF32`
//! over them, on rings of 8, 64 and 128.
//!
//! A line is a letter and three words. `s`, the taps, the phases and beta, is for the tables that
//! follow. `n` (the cutoff, 0, 0) and `m` (the rate, the passband, 0) build both tables by `new` and
//! `for_max_rate`: beside it stand the cutoff and the phases that are kept, and below it, line for line,
//! both tables' elements. `e`, an index and the patterns for both, sets an element. `o` (maximum delay,
//! margin, 0) opens a reader, `p` (the sample, the delay, 0) is a call, `r` a reset, and `O`, `P`, `R`
//! likewise for f32: beside each stand the answer and `write_index` afterwards. The words beside `s` and
//! `e` are 0. A pattern of f32 is the lower half of its word.
//!
//! The original has no refusal for a table's settings: where 01 has one it is not called, and the
//! number and the elements as they were are 01's.

use super::delays;
use crate::random::Random;
use crate::{pattern, pattern_f32, List};
use wow_dsp::{VariableDelay, VariableDelayF32, WindowedSinc, WindowedSincF32};

/// The smallest cutoff of 01.
const LEAST: f64 = 1.0 / 1024.0;

/// What a refused build stands beside: 01's number 1.
const REFUSED: u64 = 0xFFFF_FFFF_FFFF_FF01;

type Shape = (usize, usize);

pub fn write(list: &mut List) {
    let betas = [0.0, 12.0, 20.0];
    let cutoffs = [1.0, 0.5, LEAST];
    let rates = [(1.0, 1.0), (1f64.next_up(), 1.0), (1.02, 0.995), (1.5, 0.7), (2.0, 0.995), (2.0, 2.0 * LEAST)];
    for shape in [(4, 2), (8, 3)] {
        for n in 0..9 {
            Tables::new(list, shape, cutoffs[n % 3], betas[n / 3]);
        }
        for (rate, passband) in rates {
            Tables::for_max_rate(list, shape, rate, passband, 2.5);
        }
    }
    for n in 0..3 {
        Tables::new(list, (32, 4), cutoffs[n], betas[n]);
        Tables::new(list, (6, 16), cutoffs[n], betas[(n + 1) % 3]);
    }
    let small = Tables::new(list, (4, 2), 1.0, 0.0);
    small.refusals(list);
    small.readers(list, &[(0, 0)]);
    Tables::for_max_rate(list, (8, 3), 1.02, 0.995, 12.0).readers(list, &[(0, 0), (25, 0)]);
    Tables::new(list, (6, 16), 0.5, 20.0).readers(list, &[(40, 8)]);
    Tables::for_max_rate(list, (32, 4), 1.0, 0.995, 12.0).readers(list, &[(0, 0), (40, 8)]);
    Tables::for_max_rate(list, (96, 4), 1.02, 0.995, 14.0).readers(list, &[(100, 4)]);
    Tables::by_hand(list, TIES).readers(list, &[(0, 0)]);
    Tables::by_hand(list, HOSTILE).readers(list, &[(0, 0)]);
}

/// Two tables of 4 taps and 2 phases that no builder makes: one whose products and sums fall on ties of
/// f32, and one of what a lent table may hold at worst (as f32 its largest are infinities).
const TIES: [f64; 12] =
    [1.0, 0.5, TIE, -1.0, 1.0, 1.0 + 2.0 * TIE, -TIE, 0.25, -0.5, 1.5, 3.0 * TIE, 1.0 - TIE];
const HOSTILE: [f64; 12] =
    [0.0, 1e308, 1e-310, 3e38, -0.0, -1e308, 1e-45, -3e38, f64::INFINITY, f64::MAX, 2.0, f64::NAN];
const TIE: f64 = 1.0 / (1 << 24) as f64;

/// Both tables, as the original keeps them.
struct Tables {
    shape: Shape,
    cutoff: f64,
    double: Vec<f64>,
    single: Vec<f32>,
}

impl Tables {
    fn shaped(list: &mut List, (taps, phases): Shape, beta: f64) {
        list.line('s', [taps as u64, phases as u64, beta.to_bits()], 0, 0);
    }

    fn new(list: &mut List, (taps, phases): Shape, cutoff: f64, beta: f64) -> Self {
        Self::shaped(list, (taps, phases), beta);
        let double = WindowedSinc::new(taps, phases, cutoff, beta);
        let single = WindowedSincF32::new(taps, phases, cutoff, beta);
        Self::built(list, 'n', [cutoff.to_bits(), 0, 0], double, single)
    }

    fn for_max_rate(list: &mut List, (taps, phases): Shape, rate: f64, passband: f64, beta: f64) -> Self {
        Self::shaped(list, (taps, phases), beta);
        let double = WindowedSinc::for_max_rate(taps, phases, rate, passband, beta);
        let single = WindowedSincF32::for_max_rate(taps, phases, rate, passband, beta);
        Self::built(list, 'm', [rate.to_bits(), passband.to_bits(), 0], double, single)
    }

    fn built(list: &mut List, letter: char, call: [u64; 3], k: WindowedSinc, single: WindowedSincF32) -> Self {
        list.line(letter, call, pattern(k.cutoff), single.phases as u64);
        let tables = Tables { shape: (k.taps, k.phases), cutoff: k.cutoff, double: k.table, single: single.table };
        tables.elements(list);
        tables
    }

    fn elements(&self, list: &mut List) {
        for (&x, &y) in self.double.iter().zip(&self.single) {
            list.answer(pattern(x), pattern_f32(y));
        }
    }

    fn by_hand(list: &mut List, elements: [f64; 12]) -> Self {
        Self::shaped(list, (4, 2), 0.0);
        let single = elements.map(|x| x as f32);
        for (n, (x, y)) in elements.iter().zip(single).enumerate() {
            list.line('e', [n as u64, x.to_bits(), y.to_bits() as u64], 0, 0);
        }
        Tables { shape: (4, 2), cutoff: 1.0, double: elements.to_vec(), single: single.to_vec() }
    }

    /// Settings that 01 refuses by 1: both tables stay.
    fn refusals(&self, list: &mut List) {
        let cutoffs = [f64::NAN, 1f64.next_up(), LEAST.next_down()].map(|x| ('n', x, 0f64));
        let rates = [('m', 1f64.next_down(), 1.0), ('m', 2f64.next_up(), 1.0), ('m', 1.0, 0.0)];
        for (letter, a, b) in cutoffs.into_iter().chain(rates) {
            list.line(letter, [a.to_bits(), b.to_bits(), 0], REFUSED, REFUSED);
            self.elements(list);
        }
    }

    /// A reader of each width for each maximum delay and margin.
    fn readers(&self, list: &mut List, settings: &[(usize, usize)]) {
        let ((taps, phases), cutoff) = (self.shape, self.cutoff);
        for &(maximum, margin) in settings {
            let seed = (taps + 256 * phases + 65536 * maximum) as u64;
            let kernel = WindowedSinc { taps, phases, cutoff, table: self.double.clone() };
            list.line('o', [maximum as u64, margin as u64, 0], 0, 0);
            runs(list, Random::new(seed), taps as i64, VariableDelay::new(maximum, margin, kernel));
            let kernel = WindowedSincF32 { taps, phases, table: self.single.clone() };
            list.line('O', [maximum as u64, margin as u64, 0], 0, 0);
            runs(list, Random::new(!seed), taps as i64, VariableDelayF32::new(maximum, margin, kernel));
        }
    }
}

/// A whole multiple of 2^-23 from -1 to 1, the same times the smallest normal number, a sample of any kind,
/// the largest often among them or not.
enum Kind {
    Fine,
    Tiny,
    Any { largest: bool },
}

/// A reader of either width, with samples and answers as patterns.
trait Reader {
    const CALL: char;
    const RESET: char;
    fn ring(&self) -> i64;
    fn accepted(&self) -> i64;
    fn sample(random: &mut Random, kind: Kind) -> u64;
    fn process(&mut self, sample: u64, delay: f64) -> u64;
    fn clear(&mut self);
}

impl Reader for VariableDelay<WindowedSinc> {
    const CALL: char = 'p';
    const RESET: char = 'r';
    fn ring(&self) -> i64 {
        self.buffer.len() as i64
    }
    fn accepted(&self) -> i64 {
        self.write_index
    }
    fn sample(random: &mut Random, kind: Kind) -> u64 {
        let x = match kind {
            Kind::Fine => delays::fine(random),
            Kind::Tiny => delays::fine(random) * f64::MIN_POSITIVE,
            Kind::Any { largest } => delays::sample(random, largest),
        };
        x.to_bits()
    }
    fn process(&mut self, sample: u64, delay: f64) -> u64 {
        pattern(self.process_sample(f64::from_bits(sample), delay))
    }
    fn clear(&mut self) {
        self.reset();
    }
}

impl Reader for VariableDelayF32<WindowedSincF32> {
    const CALL: char = 'P';
    const RESET: char = 'R';
    fn ring(&self) -> i64 {
        self.buffer.len() as i64
    }
    fn accepted(&self) -> i64 {
        self.write_index
    }
    fn sample(random: &mut Random, kind: Kind) -> u64 {
        let x = match kind {
            Kind::Fine => delays::fine(random) as f32,
            Kind::Tiny => delays::fine(random) as f32 * f32::MIN_POSITIVE,
            Kind::Any { largest } => sample_f32(random, largest),
        };
        x.to_bits() as u64
    }
    fn process(&mut self, sample: u64, delay: f64) -> u64 {
        pattern_f32(self.process_sample(f32::from_bits(sample as u32), delay))
    }
    fn clear(&mut self) {
        self.reset();
    }
}

/// Two runs on one reader, a reset after each. The first call's fraction is 1. The first run has fine
/// samples until the ring is full, the second 12 tiny ones, and then come samples of any kind, in the
/// second run the largest too. From the twelfth call on delays are of every kind.
fn runs<R: Reader>(list: &mut List, mut random: Random, taps: i64, mut reader: R) {
    let ring = reader.ring();
    for (largest, calls) in [(false, ring + 40), (true, 40)] {
        for call in 0..calls {
            let kind = match call {
                0..12 if largest => Kind::Tiny,
                0..12 => Kind::Fine,
                _ if call < ring && !largest => Kind::Fine,
                _ => Kind::Any { largest },
            };
            let sample = R::sample(&mut random, kind);
            let held = (reader.accepted() + 1).min(ring);
            let delay = match call {
                0 => 1e-300,
                _ if call % 2 == 0 => within(&mut random, taps, held),
                1..12 => delays::near(&mut random, held),
                _ => delays::delay(&mut random, held),
            };
            let answer = reader.process(sample, delay);
            list.line(R::CALL, [sample, delay.to_bits(), 0], answer, reader.accepted() as u64);
        }
        reader.clear();
        list.line(R::RESET, [0; 3], 0, reader.accepted() as u64);
    }
}

/// A delay at which every tap is held, if there is one: else any that is short.
fn within(random: &mut Random, taps: i64, held: i64) -> f64 {
    let most = held - taps / 2 - 1;
    let whole = if most < taps / 2 { random.within(0, held) } else { random.within(taps / 2, most) };
    whole as f64 + random.unit()
}

fn sample_f32(random: &mut Random, largest: bool) -> f32 {
    let fine = delays::fine(random) as f32;
    match random.within(0, 31) {
        0 => 0.0,
        1 | 2 => -0.0,
        3 => f32::from_bits((random.word() >> 41) as u32),
        4 => -f32::from_bits(1),
        5 => fine * f32::MIN_POSITIVE,
        6 => fine * 1e38,
        7 => f32::NAN,
        8 => f32::INFINITY.copysign(fine),
        9..=20 if largest => f32::MAX.copysign(fine),
        9..=20 => (random.unit() - 0.5) as f32,
        _ => fine,
    }
}
