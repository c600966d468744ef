//! The delay readers without a table, and their kernels over slices.

use super::{memory::Lent, shapes::Shape, turn::Turn, value::Value};
use crate::{over_kernel, random::Random, Export, OverKernel};
use boundary::{Exports, Reader, Width, KERNELS};
use std::mem::ManuallyDrop;

pub const EXPORTS: &[Export] = &[
    ("fugnadri_open", |t| opened(t, t.memory.doubles, f64::open)),
    ("fugnadri_reset", |t| opened(t, t.memory.doubles, f64::reset)),
];

pub fn over_kernels() -> Vec<OverKernel> {
    let four = |k: &'static Exports| {
        [
            over_kernel(k, "process", |t| process(t, k.process)),
            over_kernel(k, "process_bits", |t| process(t, k.process_bits)),
            over_kernel(k, "sample", |t| sample(t, k.sample)),
            over_kernel(k, "sample_bits", |t| sample(t, k.sample_bits)),
        ]
    };
    KERNELS.iter().flat_map(four).collect()
}

/// What a call of a reader leaves: one sample more, or everything as it was.
pub fn left<T: Copy>(t: &Turn, number: u8, ring: &Lent<T>, before: u64, after: u64, input: T) {
    if number == 0 {
        t.hold(after == before + 1, "an accepted call does not count by one");
        let place = before as usize & (ring.slice().len() - 1);
        t.hold(ring.stored(place, input), "an accepted call leaves another ring than the one with its sample");
    } else {
        t.hold(after == before, "a refused call has changed the count");
        t.hold(ring.kept(), "a refused call has changed the ring");
    }
}

/// Opening, or a reset, in either width.
pub fn opened<T: Width + Value>(t: &mut Turn, pool: &'static [T], call: fn(usize, usize, &mut u64, &mut [T]) -> u8) -> u8 {
    let shape = t.random.shape();
    let ring = t.memory.ring.lend(&mut t.random, pool, shape.length);
    let mut accepted = [shape.accepted; 3];
    let number = call(shape.maximum, shape.margin, &mut accepted[1], ring.slice());
    t.hold([accepted[0], accepted[2]] == [shape.accepted; 2], "something beside the count is written");
    if number == 0 {
        let zero = ring.slice().iter().all(|x| x.bits() == 0);
        t.hold(zero && accepted[1] == 0 && ring.zone_kept(), "an accepted call leaves something else than zeros");
    } else {
        t.hold(ring.kept() && accepted[1] == shape.accepted, "a refused call has changed the ring or the count");
    }
    number
}

fn process<V: Value>(t: &mut Turn, call: impl FnOnce(&mut Reader, f64, f64, u64, &mut V) -> u8) -> u8 {
    let Shape { maximum, margin, accepted, length } = t.random.shape();
    let ring = t.memory.ring.lend(&mut t.random, t.memory.doubles, length);
    let mut reader = ManuallyDrop::new(Reader { maximum, margin, accepted, ring: ring.vector() });
    let (input, delay, taps) = (t.random.sample(), t.random.delay(length), taps(&mut t.random));
    let number = t.value(|_, v| call(&mut reader, input, delay, taps, v));
    t.hold((reader.maximum, reader.margin, reader.ring.len()) == (maximum, margin, length), "something beside the count is written");
    left(t, number, &ring, accepted, reader.accepted, input);
    number
}

pub fn taps(random: &mut Random) -> u64 {
    let taps = 2 * (1 + random.word() % 8);
    if random.one_in(16) {
        random.whole()
    } else {
        taps
    }
}

fn sample<V: Value>(t: &mut Turn, call: impl FnOnce(&[f64], u64, f64, u64, &mut V) -> u8) -> u8 {
    let (length, count) = t.random.source();
    let source = t.memory.source.lend(&mut t.random, t.memory.doubles, length);
    let (position, taps) = (t.random.position(length), taps(&mut t.random));
    let number = t.value(|_, v| call(source.slice(), count, position, taps, v));
    t.hold(source.kept(), "the source has changed");
    number
}
