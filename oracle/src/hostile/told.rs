//! The readers that tell their absent taps: as the readers themselves, and the three numbers beside a plain reckoning,
//! tap by tap and reading by reading.

use super::{
    bank::{self, Call as Asked, Fade},
    readers::{left, taps},
    shapes::Shape,
    tables::Settings,
    turn::Turn,
};
use crate::{over_kernel, Export, OverKernel};
use boundary::{self as b, Absent, QualityReader, Reader, KERNELS};
use std::mem::ManuallyDrop;

pub const EXPORTS: &[Export] = &[
    ("fugnadri_windowed_sinc_process_told", |t| over_table(t, t.memory.doubles, |x| x, b::sinc_process_told)),
    ("fugnadri_windowed_sinc_f32_process_told", |t| over_table(t, t.memory.floats, |x| x as f32, b::sinc_f32_process_told)),
    ("fugnadri_quality_process_told", |t| {
        bank::process(t, |t, r, c, _, v| {
            over_bank(t, r, &c, c.max_rate, |r, a| r.process_told(c.sets, c.max_rate, c.input, c.delay, c.quality, v, a))
        })
    }),
    ("fugnadri_quality_process_rate_aware_told", |t| {
        bank::process(t, |t, r, c, rate, v| {
            over_bank(t, r, &c, rate, |r, a| r.process_rate_aware_told(c.sets, c.max_rate, c.input, c.delay, c.quality, rate, v, a))
        })
    }),
];

pub fn over_kernels() -> Vec<OverKernel> {
    KERNELS.iter().map(|k| over_kernel(k, "process_told", |t| process(t, k.reads, k.process_told))).collect()
}

/// The numbers of an accepted call: sample `newest` is the one that it stored.
pub fn reckoned(newest: u64, length: usize, delay: f64, taps: u64) -> Absent {
    let first = (newest as f64 - delay).floor() as i64 - (taps as i64 / 2 - 1);
    let mut absent = Absent::default();
    for tap in first..first + taps as i64 {
        if tap < 0 {
            absent.unwritten += 1;
        } else if tap as u64 > newest {
            absent.ahead += 1;
        } else if newest - tap as u64 >= length as u64 {
            absent.overwritten += 1;
        }
    }
    absent
}

/// Three numbers among others: the call writes these alone. `right` are those of an accepted call.
pub fn told(t: &mut Turn, right: impl FnOnce() -> Absent, call: impl FnOnce(&mut Turn, &mut Absent) -> u8) -> u8 {
    let word = t.random.word();
    let around = Absent { unwritten: word, ahead: !word, overwritten: word };
    let mut absent = [around; 3];
    let number = call(t, &mut absent[1]);
    t.hold(absent[0] == around && absent[2] == around, "something beside the three numbers is written");
    let right = if number == 0 { right() } else { Absent::default() };
    t.hold(absent[1] == right, "the absent taps are not those of a plain reckoning");
    number
}

type Call = fn(&mut Reader, f64, f64, u64, &mut f64, &mut Absent) -> u8;

fn process(t: &mut Turn, many: fn(u64) -> u64, call: Call) -> u8 {
    let Shape { maximum, margin, accepted, length } = t.random.shape();
    let ring = t.memory.ring.lend(&mut t.random, t.memory.doubles, length);
    let mut reader = ManuallyDrop::new(Reader { maximum, margin, accepted, ring: ring.vector() });
    let (input, delay, taps) = (t.random.sample(), t.random.delay(length), taps(&mut t.random));
    let right = || reckoned(accepted, length, delay, many(taps));
    let number = told(t, right, |t, a| t.value(|_, v| call(&mut reader, input, delay, taps, v, a)));
    t.hold((reader.maximum, reader.margin, reader.ring.len()) == (maximum, margin, length), "something beside the count is written");
    left(t, number, &ring, accepted, reader.accepted, input);
    number
}

type OverTable<T> = fn(usize, usize, &mut u64, &mut [T], T, f64, &[T], usize, usize, &mut T, &mut Absent) -> u8;

fn over_table<T: super::value::Value + 'static>(t: &mut Turn, pool: &'static [T], of: fn(f64) -> T, call: OverTable<T>) -> u8 {
    let Settings { taps, phases, length } = t.random.settings(false);
    let shape @ Shape { maximum, margin, .. } = t.random.shape();
    let ring = t.memory.ring.lend(&mut t.random, pool, shape.length);
    let table = t.memory.table.lend(&mut t.random, pool, length);
    let (input, delay, mut accepted) = (of(t.random.sample()), t.random.delay(shape.length), [shape.accepted; 3]);
    let count = &mut accepted[1];
    let right = || reckoned(shape.accepted, shape.length, delay, taps as u64);
    let number = told(t, right, |t, a| {
        t.value(|_, v| call(maximum, margin, count, ring.slice(), input, delay, table.slice(), taps, phases, v, a))
    });
    t.hold([accepted[0], accepted[2]] == [shape.accepted; 2], "something beside the count is written");
    t.hold(table.kept(), "the table has changed");
    left(t, number, &ring, shape.accepted, accepted[1], input);
    number
}

/// The taps of every reading that an accepted call makes: of both qualities of a mixed one, and of both sets where the choice for its rate, which `oracle/run`
/// holds to the original, reads both. Draft reads the ring once.
pub fn over_bank(t: &mut Turn, r: &mut QualityReader, c: &Asked, rate: f64, call: impl FnOnce(&mut QualityReader, &mut Absent) -> u8) -> u8 {
    let (newest, length, delay) = (r.accepted, r.ring.len(), c.delay);
    let (from, to) = Fade::of(r).read(r.rule, r.crossfade_samples, c.quality);
    let (max_rate, mixed) = (c.max_rate, from != to);
    let right = || {
        let both = b::bank_choose(max_rate, rate).1.which == 2;
        let mut sum = Absent::default();
        for quality in if mixed { vec![from, to] } else { vec![to] } {
            let a = reckoned(newest, length, delay, [4, 80, 96, 128][quality as usize]);
            for _ in 0..1 + (both && quality > 0) as u8 {
                sum.unwritten += a.unwritten;
                sum.ahead += a.ahead;
                sum.overwritten += a.overwritten;
            }
        }
        sum
    };
    told(t, right, |_, a| call(r, a))
}
