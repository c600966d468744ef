//! Whole stretches of the f32 readers: beside the single calls in order, item by item. Guard bytes stand behind every
//! slice that is lent.

use super::{
    bank,
    memory::Lent,
    pool::{SET, SETS},
    shapes::Shape,
    stretches::lengths,
    tables::Settings,
    told,
    turn::Turn,
};
use crate::Export;
use boundary::{self as b, Absent, Asked, ItemsF32, LentF32, QualityReader, Width};

pub const EXPORTS: &[Export] = &[
    ("fugnadri_windowed_sinc_f32_stretch", |t| stretch(t, false)),
    ("fugnadri_quality_stretch", |t| quality(t, false)),
    ("fugnadri_windowed_sinc_f32_stretch_told", |t| stretch(t, true)),
    ("fugnadri_quality_stretch_told", |t| quality(t, true)),
];

/// Three numbers among others, of which a call writes only the middle ones.
fn around(t: &mut Turn) -> Absent {
    let word = t.random.word();
    Absent { unwritten: word, ahead: !word, overwritten: word }
}

fn add(sums: &mut Absent, one: Absent) {
    sums.unwritten += one.unwritten;
    sums.ahead += one.ahead;
    sums.overwritten += one.overwritten;
}

fn same(left: &[f32], right: &[f32]) -> bool {
    left.iter().zip(right).all(|(a, b)| a.to_bits() == b.to_bits() || a.is_nan() && b.is_nan())
}

/// Most delays are good ones, or no stretch would get far.
fn items(t: &mut Turn, inputs: usize, delays: usize, length: usize) -> (Vec<f32>, Vec<f64>) {
    let inputs = (0..inputs).map(|_| t.random.sample() as f32).collect();
    let delays = (0..delays)
        .map(|_| if t.random.one_in(4) { t.random.delay(length) } else { t.random.unit() * 40.0 })
        .collect();
    (inputs, delays)
}

fn stretch(t: &mut Turn, tells: bool) -> u8 {
    let Shape { maximum, margin, accepted, length } = t.random.shape();
    let Settings { taps, phases, length: long } = t.random.settings(false);
    let table: Lent<f32> = t.memory.table.lend(&mut t.random, t.memory.floats, long);
    let [inputs, delays, outs] = lengths(&mut t.random);
    let (inputs, delays) = items(t, inputs, delays, length);
    let ring: Lent<f32> = t.memory.ring.lend(&mut t.random, t.memory.floats, length);
    let out: Lent<f32> = t.memory.source.lend(&mut t.random, t.memory.floats, outs);
    let (mut right, mut singles) = (out.slice().to_vec(), ring.slice().to_vec());
    let mut counts = [accepted; 3];
    let mut items = ItemsF32 { inputs: &inputs, delays: &delays, done: usize::MAX };
    let lent = LentF32 { table: table.slice(), taps, phases };
    let beside = around(t);
    let mut absent = [beside; 3];
    let (count, held, to) = (&mut counts[1], ring.slice(), out.slice());
    let number = if tells {
        b::sinc_f32_stretch_told(maximum, margin, count, held, &mut items, lent, to, &mut absent[1])
    } else {
        b::sinc_f32_stretch(maximum, margin, count, held, &mut items, lent, to)
    };
    let done = items.done;
    t.hold(number <= 8, "the answer is no refusal's number");
    t.hold([counts[0], counts[2]] == [accepted; 2], "something beside the count is written");
    t.hold(out.zone_kept() && ring.zone_kept() && table.kept(), "something beside the ring and the output is written");

    // the single calls in order; without an item, a call that only the first three tests can refuse
    let single = |count: &mut u64, ring: &mut [f32], input: f32, delay: f64, sample: &mut f32| {
        f32::sinc_process(maximum, margin, count, ring, input, delay, table.slice(), taps, phases, sample)
    };
    let alike = inputs.len() == delays.len() && outs == inputs.len();
    let (mut count, mut due, mut at, mut sums) = (accepted, 0, 0, Absent::default());
    let first = match single(&mut accepted.clone(), &mut singles.clone(), 0.0, 0.0, &mut 0.0) {
        1 => 1,
        _ if !alike => 2,
        number @ (2 | 3) => number,
        _ => 0,
    };
    if first != 0 {
        due = first;
    } else {
        while at < inputs.len() {
            let mut sample = 0.0;
            let newest = count;
            due = single(&mut count, &mut singles, inputs[at], delays[at], &mut sample);
            if due != 0 {
                break;
            }
            add(&mut sums, told::reckoned(newest, length, delays[at], taps as u64));
            right[at] = sample;
            at += 1;
        }
    }
    t.hold((number, done) == (due, at), "a stretch ends elsewhere than the single calls");
    t.hold(counts[1] == count, "a stretch leaves another count than the single calls");
    let sums = if tells { sums } else { beside };
    t.hold(absent == [beside, sums, beside], "the absent taps are not those of a plain reckoning");
    t.hold(same(ring.slice(), &singles), "a stretch leaves another ring than the single calls");
    t.hold(same(out.slice(), &right), "a stretch leaves another output than the single calls");
    out.slice()[..done].iter().for_each(|&x| t.saw(x));
    number
}

/// Every number of a quality reader's state.
fn numbers(r: &QualityReader) -> ([usize; 3], u64, [u8; 4], [u32; 2]) {
    let places = [r.crossfade_position, r.crossfade_samples];
    ([r.maximum, r.margin, r.ring.len()], r.accepted, [r.current, r.target, r.rule, r.direction], places)
}

fn quality(t: &mut Turn, tells: bool) -> u8 {
    let (mut reader, ring) = bank::reader(t);
    let r = &mut t.random;
    let max_rate = r.ranged(1.0, 1.0 + 0.02 * SETS as f64);
    let right = b::bank_length(max_rate).min(SETS * SET + 1);
    let sets = t.memory.sets.last::<f32>(r.length(right, SETS * SET + 1));
    let quality = r.count(0, 3) as u8;
    let playback_rate = if r.one_in(16) { r.float() } else { r.ranged(1.0, max_rate) };
    let asked = Asked { sets, max_rate, quality, playback_rate };
    let [inputs, delays, outs] = lengths(r);
    let (inputs, delays) = items(t, inputs, delays, ring.slice().len());
    let out: Lent<f32> = t.memory.source.lend(&mut t.random, t.memory.floats, outs);
    let mut right = out.slice().to_vec();
    let mut single = QualityReader::clone(&reader);
    let mut items = ItemsF32 { inputs: &inputs, delays: &delays, done: usize::MAX };
    let beside = around(t);
    let mut absent = [beside; 3];
    let number = if tells {
        reader.stretch_told(&mut items, asked, out.slice(), &mut absent[1])
    } else {
        reader.stretch(&mut items, asked, out.slice())
    };
    let done = items.done;
    t.hold(number <= 8, "the answer is no refusal's number");
    t.hold(out.zone_kept() && ring.zone_kept(), "something beside the ring and the output is written");

    // the single calls in order; without an item, a call that only the first three tests can refuse
    let call = |r: &mut QualityReader, input: f32, delay: f64, rate: f64, sample: &mut f32, one: &mut Absent| {
        r.process_rate_aware_told(sets, max_rate, input, delay, quality, rate, sample, one)
    };
    let alike = inputs.len() == delays.len() && outs == inputs.len();
    let (mut due, mut at, mut sums) = (0, 0, Absent::default());
    let first = match call(&mut single.clone(), 0.0, 0.0, 1.0, &mut 0.0, &mut Absent::default()) {
        1 => 1,
        _ if !alike => 2,
        number @ (2 | 3) => number,
        _ => 0,
    };
    if first != 0 {
        due = first;
    } else {
        while at < inputs.len() {
            let (mut sample, mut one) = (0.0, Absent::default());
            due = call(&mut single, inputs[at], delays[at], playback_rate, &mut sample, &mut one);
            if due != 0 {
                break;
            }
            add(&mut sums, one);
            right[at] = sample;
            at += 1;
        }
    }
    t.hold((number, done) == (due, at), "a stretch ends elsewhere than the single calls");
    t.hold(numbers(&reader) == numbers(&single), "a stretch leaves another state than the single calls");
    let sums = if tells { sums } else { beside };
    t.hold(absent == [beside, sums, beside], "the absent taps are not those of the single calls");
    t.hold(same(ring.slice(), &single.ring), "a stretch leaves another ring than the single calls");
    t.hold(same(out.slice(), &right), "a stretch leaves another output than the single calls");
    out.slice()[..done].iter().for_each(|&x| t.saw(x));
    number
}
