//! The bank without its tables, the change of quality, and Draft's reading.
//!
//! A line is a letter and three words, and two words answer it:
//! `s`, maximum rate, set, 0: the set's rate, and how many sets there are.
//! `c`, maximum rate, rate, 0: safe set, tighter set and which is read (0 safe, 1 tighter, 2 both),
//! two hex digits each; the blend where both are.
//! `o`, quality, crossfade length, 0, and `q`, quality, 0, 0, and `r`, 0, 0, 0 open, call and reset
//! a reader: direction, current quality, target and whether the call mixed, two digits each; the
//! crossfade's place and the target's weight (0 where it does not mix), eight digits each. `b` opens
//! one by the second rule, which the original does not have: a plain reckoning answers.
//! `p`, place, f32 pattern, 0 puts a sample into the ring: the same two words.
//! `d`, samples accepted, position, length of the ring: `cubic_sample_f32`, and the length.

use crate::random::Random;
use crate::List;
use std::sync::Arc;
use wow_dsp::{cubic_sample_f32, QualityMode, QualityVariableDelayF32, RingViewF32, SincBankF32};

/// Banks that are built: the rates are theirs, and each choice is held to what they read.
const BUILT: [f64; 7] = [1.0, 1.0000000000000002, 1.000001, 1.02, 1.04, 1.05, 1.1];

/// Banks of many sets: their rates and choices are by 000's lines alone.
const LARGE: [f64; 3] = [1.3, 1.9999999999999998, 2.0];

/// What a bank reads where a choice is held to it.
const NOISE: [f32; 64] = noise();

const MODES: [QualityMode; 4] = [QualityMode::Draft, QualityMode::Normal, QualityMode::Hq, QualityMode::Ultra];

pub fn write(list: &mut List) {
    for max in BUILT {
        let bank = SincBankF32::for_max_rate(max);
        let rates: Vec<f64> = bank.sets.iter().map(|set| set.rate).collect();
        sets(list, max, &rates, Some(&bank));
    }
    for max in LARGE {
        sets(list, max, &rates(max), None);
    }
    qualities(list, &Arc::new(SincBankF32::for_max_rate(1.0)));
    returning(list);
    draft(list);
}

const fn noise() -> [f32; 64] {
    let mut samples = [0.0; 64];
    let mut k = 0;
    while k < 64 {
        samples[k] = (k * 37 % 64) as f32 - 31.5;
        k += 1;
    }
    samples
}

/// 000's lines of SincBankF32::for_max_rate, without the tables.
fn rates(max: f64) -> Vec<f64> {
    let steps = ((max - 1.0) / 0.02).ceil().max(1.0) as usize;
    (1..=steps).map(|index| 1.0 + (max - 1.0) * index as f64 / steps as f64).collect()
}

/// 000's lines of SincBankF32::sample, down to what is read. A bank that is at hand must read just so.
fn choice(list: &mut List, max: f64, sets: &[f64], bank: Option<&SincBankF32>, requested: f64) {
    let rate = requested.clamp(1.0, max);
    let safe = sets.partition_point(|set| *set < rate).min(sets.len() - 1);
    let tighter = (safe + 1).min(sets.len() - 1);
    let lower = if safe == 0 { 1.0 } else { sets[safe - 1] };
    let blend = ((rate - lower) / (sets[safe] - lower)) as f32;
    let (which, blend) = match () {
        _ if (sets[safe] - lower).abs() <= f64::EPSILON => (0, 0.0),
        _ if blend <= f32::EPSILON => (0, 0.0),
        _ if blend >= 1.0 - f32::EPSILON => (1, 0.0),
        _ => (2, blend.clamp(0.0, 1.0)),
    };
    if let Some(bank) = bank {
        let source = RingViewF32 { buffer: &NOISE, newest: 63 };
        let read = |set: usize| SincBankF32::sample_set(&bank.sets[set], &source, 30.3, QualityMode::Normal);
        let (a, b) = (read(safe), read(tighter));
        assert!(safe == tighter || a != b, "two sets read the same");
        let right = [a, b, a + (b - a) * blend][which];
        let given = bank.sample(&source, 30.3, QualityMode::Normal, requested);
        assert!(crate::pattern_f32(right) == crate::pattern_f32(given), "{max} {requested}: not what the bank reads");
    }
    let words = [max.to_bits(), requested.to_bits(), 0];
    list.line('c', words, packed(safe as u64, tighter as u64, which as u64), crate::pattern_f32(blend));
}

fn packed(a: u64, b: u64, c: u64) -> u64 {
    a << 16 | b << 8 | c
}

/// Some sets of a bank, and one too many; choices at their rates, beside them, between and outside.
fn sets(list: &mut List, max: f64, rates: &[f64], bank: Option<&SincBankF32>) {
    let mut random = Random::new(max.to_bits());
    let many = rates.len();
    let mut some = vec![0, 1, many / 2, many.saturating_sub(2), many - 1, many];
    some.sort_unstable();
    some.dedup();
    for set in some {
        let rate = rates.get(set).copied().unwrap_or(0.0);
        list.line('s', [max.to_bits(), set as u64, 0], rate.to_bits(), many as u64);
        if set == many {
            continue;
        }
        let lower = if set == 0 { 1.0 } else { rates[set - 1] };
        let wide = rate - lower;
        // the blend beside f32's epsilon, in between, and about 1 less epsilon: the second of these only as an f32 reaches it
        let blends = [1.1e-7, 1.2e-7, random.unit(), 0.99999985, 0.99999987, 0.99999994];
        for blend in blends {
            choice(list, max, rates, bank, lower + wide * blend);
        }
        for near in [rate.next_down(), rate, rate.next_up()] {
            choice(list, max, rates, bank, near);
        }
    }
    for outside in [
        f64::NEG_INFINITY,
        -f64::MAX,
        -0.0,
        0.5,
        1.0f64.next_down(),
        1.0,
        max,
        max.next_up(),
        3.0,
        f64::INFINITY,
        f64::NAN,
    ] {
        choice(list, max, rates, bank, outside);
    }
}

/// Crossfades of 0, 1, 2 and 5 calls, from each quality to each other: at every place of the fade every
/// quality but its target is asked for, the current one too; then the fade is left to end.
fn qualities(list: &mut List, bank: &Arc<SincBankF32>) {
    for length in [0, 1, 2, 5] {
        for (from, to) in MODES.into_iter().flat_map(|a| MODES.map(|b| (a, b))).filter(|(a, b)| a != b) {
            let mut reader = QualityVariableDelayF32::new(0, 0, bank.clone(), from, length);
            state(list, &reader, 'o', [from as u64, length as u64, 0], 0);
            call(list, &mut reader, from);
            for place in 1..length {
                for other in MODES.into_iter().filter(|q| *q != to) {
                    calls(list, &mut reader, to, place);
                    call(list, &mut reader, other);
                }
            }
            calls(list, &mut reader, to, length + 1);
            call(list, &mut reader, MODES[(to as usize + 1 + from as usize % 3) % 4]);
            reader.reset();
            state(list, &reader, 'r', [0; 3], 0);
        }
    }
}

fn calls(list: &mut List, reader: &mut QualityVariableDelayF32, asked: QualityMode, many: u32) {
    for _ in 0..many {
        call(list, reader, asked);
    }
}

/// One call. 000 mixes where the current quality is not the target, which is the one asked for, and the length is not 0.
fn call(list: &mut List, reader: &mut QualityVariableDelayF32, asked: QualityMode) {
    let mixes = reader.current_quality != asked && reader.crossfade_samples != 0;
    reader.process_sample(0.5, 1.5, asked);
    let weight = if mixes { reader.crossfade_position } else { 0 };
    state(list, reader, 'q', [asked as u64, 0, 0], weight);
}

/// The weight is the place once it has advanced: 000 takes the place and 1, and then advances.
fn state(list: &mut List, reader: &QualityVariableDelayF32, letter: char, words: [u64; 3], weight: u32) {
    let (current, target) = (reader.current_quality as u64, reader.target_quality as u64);
    let places = (reader.crossfade_position as u64) << 32 | weight as u64;
    list.line(letter, words, packed(current, target, (weight != 0) as u64), places);
}

/// A fade by the second rule (W9): going back runs the weight down, and a third quality waits.
struct Returning {
    length: u64,
    current: u64,
    target: u64,
    place: u64,
    back: bool,
}

impl Returning {
    fn line(&self, list: &mut List, letter: char, words: [u64; 3], weight: u64) {
        let first = (self.back as u64) << 24 | packed(self.current, self.target, (weight != 0) as u64);
        list.line(letter, words, first, self.place << 32 | weight);
    }

    fn call(&mut self, list: &mut List, asked: u64) {
        let mut weight = 0;
        if self.current == self.target && asked != self.target {
            (self.target, self.place) = (asked, 0);
        } else if self.current != self.target {
            self.back = asked != self.target && (asked == self.current || self.back);
        }
        if self.back {
            self.place -= 1;
            weight = self.place;
            if weight == 0 {
                (self.target, self.place, self.back) = (self.current, self.length, false);
            }
        } else if self.current != self.target {
            if self.length > 0 {
                self.place += 1;
                weight = self.place;
            }
            if self.place >= self.length {
                self.current = self.target;
            }
        }
        self.line(list, 'q', [asked, 0, 0], weight);
    }
}

/// Crossfades of 0, 1, 2 and 5 calls by the second rule: at every place of a fade every quality is asked for, for one
/// call and for three; then the fade is left to end.
fn returning(list: &mut List) {
    for length in [0, 1, 2, 5] {
        for (from, to) in (0..4).flat_map(|a| (0..4).map(move |b| (a, b))).filter(|(a, b)| a != b) {
            let mut fade = Returning { length, current: from, target: from, place: length, back: false };
            fade.line(list, 'b', [from, length, 0], 0);
            for place in 1..length {
                for (other, many) in (0..4).flat_map(|q| [(q, 1), (q, 3)]) {
                    (0..place).for_each(|_| fade.call(list, to));
                    (0..many).for_each(|_| fade.call(list, other));
                }
            }
            (0..2 * length + 1).for_each(|_| fade.call(list, to));
            fade.call(list, (to + 1) % 4);
            (fade.current, fade.place, fade.back) = (fade.target, length, false);
            fade.line(list, 'r', [0; 3], 0);
        }
    }
}

/// Rings of 4, 8 and 16 places, filled twice: with samples as a recording has them, and with others.
fn draft(list: &mut List) {
    const TINY: f32 = f32::MIN_POSITIVE;
    let others = [
        0.0,
        -0.0,
        1e-45,
        -1e-45,
        TINY,
        -TINY / 2.0,
        -f32::MAX,
        -f32::MAX,
        1.0,
        -1.0,
        3e38,
        -0.0,
        1e-30,
        0.1,
        -1e-40,
        f32::INFINITY,
    ];
    let mut random = Random::new(7);
    let fine = [0; 16].map(|_| random.within(-1 << 23, 1 << 23) as f32 / 8388608.0);
    for samples in [fine, others] {
        for (place, x) in samples.iter().enumerate() {
            let bits = x.to_bits() as u64;
            list.line('p', [place as u64, bits, 0], place as u64, bits);
        }
        for length in [4, 8, 16] {
            for count in [1, 3, length, length + 5, 1000].map(|count| count as i64) {
                reads(list, &mut random, &samples[..length], count);
            }
        }
    }
}

/// Positions inside, at both ends of what is held, before and past it; whole, between, and of the fraction 1.
fn reads(list: &mut List, random: &mut Random, buffer: &[f32], count: i64) {
    let oldest = (count - buffer.len() as i64).max(0) as f64;
    let newest = (count - 1) as f64;
    let whole = random.within(oldest as i64, count) as f64;
    let mut inside = || oldest + random.unit() * (newest - oldest);
    let inside = [inside(), inside(), inside(), inside()];
    let pick = random.within(0, 3) as usize;
    let edges = [oldest - 1.5, newest + 0.5, oldest.next_down(), [-68719476736.0, 68719476736.0, -1e-300, -0.0][pick]];
    for position in inside.into_iter().chain([whole, whole.next_down(), whole + 1.0 - 1e-9]).chain(edges) {
        let y = cubic_sample_f32(&RingViewF32 { buffer, newest: count - 1 }, position);
        let words = [count as u64, position.to_bits(), buffer.len() as u64];
        list.line('d', words, crate::pattern_f32(y), buffer.len() as u64);
    }
}
