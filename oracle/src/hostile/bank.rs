//! The bank, and the reader whose quality may change. The sets that it reads lie in memory that cannot be written.

use super::{
    memory::Lent,
    pool::{SET, SETS},
    readers::left,
    shapes::Shape,
    tables::{built, mode},
    turn::Turn,
    value::Value,
};
use crate::Export;
use boundary::{self as b, QualityReader};
use std::mem::ManuallyDrop;

pub const EXPORTS: &[Export] = &[
    ("fugnadri_bank_choose", choose),
    ("fugnadri_bank_build_set", |t| build(t, 2.0, b::bank_build_set)),
    // up to 1.02 a bank has one set
    ("fugnadri_bank_build", |t| build(t, 1.02, b::bank_build)),
    ("fugnadri_bank_build_set_in", |t| build_in(t, 2.0, b::bank_build_set_in)),
    ("fugnadri_bank_build_in", |t| build_in(t, 1.02, b::bank_build_in)),
    ("fugnadri_quality_open", |t| {
        let quality = t.random.count(0, 3) as u8;
        opened(t, |reader| reader.open(quality))
    }),
    ("fugnadri_quality_open_returning", |t| {
        let quality = t.random.count(0, 3) as u8;
        let number = opened(t, |reader| reader.open_returning(quality));
        t.hold(quality <= 3 || number == 1, "a number that names no quality is taken");
        number
    }),
    ("fugnadri_quality_reset", |t| opened(t, |reader| reader.reset())),
    ("fugnadri_quality_process", |t| process(t, |_, r, c, _, v: &mut f32| r.process(c.sets, c.max_rate, c.input, c.delay, c.quality, v))),
    ("fugnadri_quality_process_bits", |t| process(t, |_, r, c, _, v: &mut u32| r.process_bits(c.sets, c.max_rate, c.input, c.delay, c.quality, v))),
    ("fugnadri_quality_process_rate_aware", |t| {
        process(t, |_, r, c, rate, v: &mut f32| r.process_rate_aware(c.sets, c.max_rate, c.input, c.delay, c.quality, rate, v))
    }),
    ("fugnadri_quality_process_rate_aware_bits", |t| {
        process(t, |_, r, c, rate, v: &mut u32| r.process_rate_aware_bits(c.sets, c.max_rate, c.input, c.delay, c.quality, rate, v))
    }),
];

fn choose(t: &mut Turn) -> u8 {
    let (max_rate, rate) = (t.random.ranged(1.0, 2.0), t.random.ranged(1.0, 2.0));
    let (number, c) = b::bank_choose(max_rate, rate);
    let due = if !(1.0..=2.0).contains(&max_rate) { 1 } else { 7 * rate.is_nan() as u8 };
    t.hold(number == due, "another refusal is due");
    let zero = (c.safe, c.tighter, c.which, c.blend.to_bits()) == (0, 0, 0, 0);
    t.hold(number == 0 || zero, "a refused choice is not zero");
    t.saw(c.safe);
    t.saw(c.tighter);
    t.saw(c.which);
    t.saw(c.blend);
    number
}

/// A whole set takes long to build: the first call in 100,000 is lent one.
fn whole(t: &Turn) -> bool {
    t.index % 100_000 == 0
}

fn build(t: &mut Turn, most: f64, call: impl FnOnce(f64, &mut [f32]) -> u8) -> u8 {
    let length = if whole(t) { SET } else { t.random.pick(&[0, 1, 7, SET / 1000, 100]) };
    let rate = if whole(t) { 1.0 + t.random.unit() * (most - 1.0) } else { t.random.ranged(1.0, most) };
    let set = t.memory.ring.lend(&mut t.random, t.memory.floats, length);
    let number = call(rate, set.slice());
    built(t, number, &set)
}

fn build_in(t: &mut Turn, most: f64, call: fn(f64, u8, &mut [f32]) -> u8) -> u8 {
    let mode = if whole(t) { t.random.one_in(2) as u8 } else { mode(t) };
    let number = build(t, most, |rate, set| call(rate, mode, set));
    t.hold(mode <= 1 || number == 1, "a number that names no mode is taken");
    number
}

/// A state that is mostly an open reader's, over a ring that is lent.
pub fn reader(t: &mut Turn) -> (ManuallyDrop<QualityReader>, Lent<f32>) {
    let Shape { maximum, margin, accepted, length } = t.random.shape();
    let ring = t.memory.ring.lend(&mut t.random, t.memory.floats, length);
    let r = &mut t.random;
    let crossfade_samples = if r.one_in(8) { r.count(0, 1 << 24) } else { r.word() % 8 } as u32;
    let [current, target] = [r.count(0, 3) as u8, r.count(0, 3) as u8];
    let below = crossfade_samples as u64 + (current == target) as u64;
    let crossfade_position = if r.one_in(16) || below == 0 { r.whole() } else { r.word() % below } as u32;
    let target = if below == 0 && !r.one_in(16) { current } else { target };
    let ring_of = ring.vector();
    let rule = r.count(0, 1) as u8;
    let direction = if rule == 0 && !r.one_in(16) { 0 } else { r.count(0, 1) as u8 };
    let reader =
        QualityReader { maximum, margin, accepted, current, target, crossfade_position, crossfade_samples, rule, direction, ring: ring_of };
    (ManuallyDrop::new(reader), ring)
}

/// Every number of the state.
pub fn numbers(r: &QualityReader) -> ([usize; 3], u64, u32, u8, Fade) {
    ([r.maximum, r.margin, r.ring.len()], r.accepted, r.crossfade_samples, r.rule, Fade::of(r))
}

/// What a call changes of the qualities.
#[derive(Clone, Copy, PartialEq)]
pub struct Fade {
    current: u8,
    target: u8,
    place: u32,
    direction: u8,
}

impl Fade {
    pub fn of(r: &QualityReader) -> Self {
        Fade { current: r.current, target: r.target, place: r.crossfade_position, direction: r.direction }
    }

    /// W9g. Whether a fade of this length is in its ranges by a rule.
    fn fine(self, rule: u8, length: u32) -> bool {
        let Fade { current, target, place, direction } = self;
        let known = current <= 3 && target <= 3 && rule <= 1 && direction <= 1 && length <= 1 << 24;
        known
            && match (rule, current == target) {
                (_, true) => direction == 0 && place <= length,
                (0, false) => direction == 0 && place < length,
                (_, false) => 0 < place && place < length,
            }
    }

    /// The qualities that an accepted call reads: both of a mixed one, else the only one twice.
    pub fn read(self, rule: u8, length: u32, asked: u8) -> (u8, u8) {
        let Fade { current, target, place, direction } = self;
        if rule == 1 && current != target {
            let back = asked != target && (asked == current || direction == 1);
            return (current, if back && place == 1 { current } else { target });
        }
        (if length == 0 { asked } else { current }, asked)
    }

    /// What an accepted call that asks for a quality leaves, in plain steps.
    fn after(self, rule: u8, length: u32, asked: u8) -> Self {
        let mut f = self;
        if rule == 1 && f.current != f.target {
            let back = asked != f.target && (asked == f.current || f.direction == 1);
            f.direction = back as u8;
            if back {
                f.place -= 1;
                if f.place == 0 {
                    return Fade { current: f.current, target: f.current, place: length, direction: 0 };
                }
                return f;
            }
        } else if asked != f.target {
            (f.target, f.place) = (asked, 0);
        }
        if f.current != f.target && length != 0 {
            f.place += 1;
            if f.place < length {
                return f;
            }
        }
        f.current = f.target;
        f
    }
}

fn opened(t: &mut Turn, call: impl FnOnce(&mut QualityReader) -> u8) -> u8 {
    let (mut reader, ring) = reader(t);
    let before = numbers(&reader);
    let number = call(&mut reader);
    t.hold(number <= 8, "the answer is no refusal's number");
    if number == 0 {
        let zero = ring.slice().iter().all(|x| x.to_bits() == 0) && ring.zone_kept();
        let one = reader.current == reader.target && reader.crossfade_position == reader.crossfade_samples;
        let still = reader.direction == 0 && reader.rule <= 1;
        t.hold(zero && one && still && reader.accepted == 0, "an accepted call leaves something else than zeros and one quality");
    } else {
        t.hold(ring.kept() && numbers(&reader) == before, "a refused call has changed the ring or the state");
    }
    number
}

/// What every call is handed beside the reader.
pub struct Call<'a> {
    pub sets: &'a [f32],
    pub max_rate: f64,
    pub input: f32,
    pub delay: f64,
    pub quality: u8,
}

pub fn process<V: Value>(t: &mut Turn, call: impl FnOnce(&mut Turn, &mut QualityReader, Call, f64, &mut V) -> u8) -> u8 {
    let (mut reader, ring) = reader(t);
    let before = numbers(&reader);
    let r = &mut t.random;
    let max_rate = r.ranged(1.0, 1.0 + 0.02 * SETS as f64);
    // 0.02 * SETS is a little more than so many steps
    let right = b::bank_length(max_rate).min(SETS * SET + 1);
    let sets = t.memory.sets.last::<f32>(r.length(right, SETS * SET + 1));
    let input = match r.word() % 16 {
        0 => r.float32(),
        1 => r.pick(&[f32::MAX, -f32::MAX]),
        _ => r.sample() as f32,
    };
    let (delay, quality) = (r.delay(ring.slice().len()), r.count(0, 3) as u8);
    let rate = if r.one_in(16) { r.float() } else { r.ranged(1.0, max_rate) };
    let number = t.value(|t, v| call(t, &mut reader, Call { sets, max_rate, input, delay, quality }, rate, v));
    let after = numbers(&reader);
    t.hold((after.0, after.2, after.3) == (before.0, before.2, before.3), "something beside the state is written");
    t.hold(number == 0 || after == before, "a refused call has changed the state");
    let (fade, length, rule) = (before.4, before.2, before.3);
    t.hold(number != 0 || fade.fine(rule, length), "a state out of its ranges is accepted");
    let right = number != 0 || after.4 == fade.after(rule, length, quality) && after.4.fine(rule, length);
    t.hold(right, "an accepted call leaves other qualities than plain steps do");
    left(t, number, &ring, before.1, after.1, input);
    t.saw(reader.current);
    t.saw(reader.crossfade_position as usize);
    number
}
