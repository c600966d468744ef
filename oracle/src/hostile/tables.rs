//! Tables of the windowed sinc, their readings over slices, and the readers over them, in both widths.

use super::{
    memory::Lent,
    readers::{left, opened},
    shapes::Shape,
    turn::Turn,
    value::Value,
};
use crate::{random::Random, Export};
use boundary::Width;

pub const EXPORTS: &[Export] = &[
    ("fugnadri_windowed_sinc_new", |t| build(t, t.memory.doubles)),
    ("fugnadri_windowed_sinc_for_max_rate", |t| build_for_max_rate(t, t.memory.doubles)),
    ("fugnadri_windowed_sinc_f32_new", |t| build(t, t.memory.floats)),
    ("fugnadri_windowed_sinc_f32_for_max_rate", |t| build_for_max_rate(t, t.memory.floats)),
    ("fugnadri_windowed_sinc_new_in", |t| build_in(t, t.memory.doubles)),
    ("fugnadri_windowed_sinc_for_max_rate_in", |t| build_for_max_rate_in(t, t.memory.doubles)),
    ("fugnadri_windowed_sinc_f32_new_in", |t| build_in(t, t.memory.floats)),
    ("fugnadri_windowed_sinc_f32_for_max_rate_in", |t| build_for_max_rate_in(t, t.memory.floats)),
    ("fugnadri_windowed_sinc_sample", |t| sample(t, t.memory.doubles, f64::sinc_sample)),
    ("fugnadri_windowed_sinc_sample_bits", |t| sample(t, t.memory.doubles, f64::sinc_sample_bits)),
    ("fugnadri_windowed_sinc_f32_sample", |t| sample(t, t.memory.floats, f32::sinc_sample)),
    ("fugnadri_windowed_sinc_f32_sample_bits", |t| sample(t, t.memory.floats, f32::sinc_sample_bits)),
    ("fugnadri_open_f32", |t| opened(t, t.memory.floats, f32::open)),
    ("fugnadri_reset_f32", |t| opened(t, t.memory.floats, f32::reset)),
    ("fugnadri_windowed_sinc_process", |t| process(t, t.memory.doubles, |x| x, f64::sinc_process)),
    ("fugnadri_windowed_sinc_process_bits", |t| process(t, t.memory.doubles, |x| x, f64::sinc_process_bits)),
    ("fugnadri_windowed_sinc_f32_process", |t| process(t, t.memory.floats, |x| x as f32, f32::sinc_process)),
    ("fugnadri_windowed_sinc_f32_process_bits", |t| process(t, t.memory.floats, |x| x as f32, f32::sinc_process_bits)),
];

pub struct Settings {
    pub taps: usize,
    pub phases: usize,
    pub length: usize,
}

impl Random {
    /// Taps, phases and a length that mostly fit: few phases, seldom many.
    pub fn settings(&mut self, few_taps: bool) -> Settings {
        let taps = match self.word() % 32 {
            0 => self.count(4, 128),
            1..=3 if !few_taps => 2 * (2 + self.word() % 63),
            _ => 2 * (2 + self.word() % 7),
        };
        let phases = match self.word() % (1 << 18) {
            0 => self.pick(&[4095, 4096]),
            1..=255 => self.count(2, 512),
            256..=8191 => self.pick(&[0, 1, 4097, u64::MAX, 1 << 63]),
            _ => 2 + self.word() % 8,
        };
        let right = if taps <= 128 && phases <= 4096 { (phases + 1) * taps } else { 100 } as usize;
        Settings { taps: taps as usize, phases: phases as usize, length: self.length(right, 4097 * 128) }
    }
}

/// A refused build has written nothing; an accepted one nothing beside the table.
pub fn built<T: Value>(t: &mut Turn, number: u8, table: &Lent<T>) -> u8 {
    t.hold(number <= 8, "the answer is no refusal's number");
    t.hold(if number == 0 { table.zone_kept() } else { table.kept() }, "a refused build has changed the table, or an accepted one what is beside it");
    if number == 0 {
        table.slice().iter().for_each(|x| t.saw(*x));
    }
    number
}

fn build<T: Width + Value>(t: &mut Turn, pool: &'static [T]) -> u8 {
    let Settings { taps, phases, length } = t.random.settings(true);
    let table = t.memory.table.lend(&mut t.random, pool, length);
    let (cutoff, beta) = (t.random.ranged(0.0009765625, 1.0), t.random.ranged(0.0, 20.0));
    let number = T::build(taps, phases, cutoff, beta, table.slice());
    built(t, number, &table)
}

fn build_for_max_rate<T: Width + Value>(t: &mut Turn, pool: &'static [T]) -> u8 {
    let Settings { taps, phases, length } = t.random.settings(true);
    let table = t.memory.table.lend(&mut t.random, pool, length);
    let (rate, passband, beta) = (t.random.ranged(1.0, 2.0), t.random.ranged(0.0, 1.0), t.random.ranged(0.0, 20.0));
    let number = T::build_for_max_rate(taps, phases, rate, passband, beta, table.slice());
    built(t, number, &table)
}

/// A mode's number: seldom one that names none, for which 1 is due.
pub fn mode(t: &mut Turn) -> u8 {
    if t.random.one_in(8) {
        t.random.word() as u8
    } else {
        t.random.one_in(2) as u8
    }
}

/// What a build in a mode gives: 1 where the number names none.
fn built_in<T: Value>(t: &mut Turn, mode: u8, number: u8, table: &Lent<T>) -> u8 {
    t.hold(mode <= 1 || number == 1, "a number that names no mode is taken");
    built(t, number, table)
}

fn build_in<T: Width + Value>(t: &mut Turn, pool: &'static [T]) -> u8 {
    let Settings { taps, phases, length } = t.random.settings(true);
    let table = t.memory.table.lend(&mut t.random, pool, length);
    let (cutoff, beta, mode) = (t.random.ranged(0.0009765625, 1.0), t.random.ranged(0.0, 20.0), mode(t));
    let number = T::build_in(taps, phases, cutoff, beta, mode, table.slice());
    built_in(t, mode, number, &table)
}

fn build_for_max_rate_in<T: Width + Value>(t: &mut Turn, pool: &'static [T]) -> u8 {
    let Settings { taps, phases, length } = t.random.settings(true);
    let table = t.memory.table.lend(&mut t.random, pool, length);
    let (rate, passband, beta) = (t.random.ranged(1.0, 2.0), t.random.ranged(0.0, 1.0), t.random.ranged(0.0, 20.0));
    let mode = mode(t);
    let number = T::build_for_max_rate_in(taps, phases, rate, passband, beta, mode, table.slice());
    built_in(t, mode, number, &table)
}

type Sample<T, V> = fn(&[T], usize, usize, &[T], u64, f64, &mut V) -> u8;

fn sample<T: Width, V: Value>(t: &mut Turn, pool: &'static [T], call: Sample<T, V>) -> u8 {
    let Settings { taps, phases, length } = t.random.settings(false);
    let (many, count) = t.random.source();
    let (table, source) = (t.memory.table.lend(&mut t.random, pool, length), t.memory.source.lend(&mut t.random, pool, many));
    let position = t.random.position(many);
    let number = t.value(|_, v| call(table.slice(), taps, phases, source.slice(), count, position, v));
    t.hold(table.kept() && source.kept(), "the table or the source has changed");
    number
}

type Process<T, V> = fn(usize, usize, &mut u64, &mut [T], T, f64, &[T], usize, usize, &mut V) -> u8;

fn process<T: Width, V: Value>(t: &mut Turn, pool: &'static [T], of: fn(f64) -> T, call: Process<T, V>) -> u8 {
    let Settings { taps, phases, length } = t.random.settings(false);
    let shape @ Shape { maximum, margin, .. } = t.random.shape();
    let ring = t.memory.ring.lend(&mut t.random, pool, shape.length);
    let table = t.memory.table.lend(&mut t.random, pool, length);
    let (input, delay, mut accepted) = (of(t.random.sample()), t.random.delay(shape.length), [shape.accepted; 3]);
    let number = t.value(|_, v| call(maximum, margin, &mut accepted[1], ring.slice(), input, delay, table.slice(), taps, phases, v));
    t.hold([accepted[0], accepted[2]] == [shape.accepted; 2], "something beside the count is written");
    t.hold(table.kept(), "the table has changed");
    left(t, number, &ring, shape.accepted, accepted[1], input);
    number
}
