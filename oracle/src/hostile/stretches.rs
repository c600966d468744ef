//! Whole stretches of the delay readers: beside the single calls in order, item by item. Guard bytes stand behind every
//! slice that is lent.

use super::{memory::Lent as Memory, readers::taps, shapes::Shape, tables::Settings, told, turn::Turn};
use crate::{over_kernel, random::Random, Export, OverKernel};
use boundary::{Absent, Exports, Items, Lent, Reader, Width, KERNELS};
use std::mem::ManuallyDrop;

pub const EXPORTS: &[Export] = &[
    ("fugnadri_windowed_sinc_stretch", |t| stretch(t, Over::Table, false)),
    ("fugnadri_windowed_sinc_stretch_told", |t| stretch(t, Over::Table, true)),
];

pub fn over_kernels() -> Vec<OverKernel> {
    let two = |k| {
        [
            over_kernel(k, "stretch", |t| stretch(t, Over::Kernel(k), false)),
            over_kernel(k, "stretch_told", |t| stretch(t, Over::Kernel(k), true)),
        ]
    };
    KERNELS.iter().flat_map(two).collect()
}

/// What a stretch goes over: a kernel without a table, or the windowed sinc with one.
#[derive(Clone, Copy)]
enum Over {
    Kernel(&'static Exports),
    Table,
}

/// A call's taps, and its table where it has one.
struct Lends<'a> {
    taps: u64,
    phases: usize,
    values: &'a [f64],
}

impl Over {
    fn single(self, r: &mut Reader, input: f64, delay: f64, lends: &Lends, sample: &mut f64) -> u8 {
        let Lends { taps, phases, values } = *lends;
        let Over::Kernel(kernel) = self else {
            let (count, ring, taps) = (&mut r.accepted, &mut r.ring[..], taps as usize);
            return f64::sinc_process(r.maximum, r.margin, count, ring, input, delay, values, taps, phases, sample);
        };
        (kernel.process)(r, input, delay, taps, sample)
    }

    /// The stretch that tells its absent taps, where there are numbers for them.
    fn stretch(self, r: &mut Reader, i: &mut Items, lends: &Lends, out: &mut [f64], absent: Option<&mut Absent>) -> u8 {
        let table = Lent { table: lends.values, taps: lends.taps as usize, phases: lends.phases };
        match (self, absent) {
            (Over::Kernel(kernel), None) => (kernel.stretch)(r, i, lends.taps, out),
            (Over::Kernel(kernel), Some(a)) => (kernel.stretch_told)(r, i, lends.taps, out, a),
            (Over::Table, None) => r.sinc_stretch(i, table, out),
            (Over::Table, Some(a)) => r.sinc_stretch_told(i, table, out, a),
        }
    }
}

/// How many items: mostly as many of each, none, or more than the ring has places.
pub fn lengths(random: &mut Random) -> [usize; 3] {
    let many = match random.word() % 16 {
        0 => 0,
        1 => (random.word() % 200) as usize,
        _ => (random.word() % 24) as usize,
    };
    let mut all = [many; 3];
    if random.one_in(24) {
        let at = (random.word() % 3) as usize;
        all[at] = random.pick(&[many + 1, many.saturating_sub(1), 0, many + 7]);
    }
    all
}

fn same(left: &[f64], right: &[f64]) -> bool {
    left.iter().zip(right).all(|(a, b)| a.to_bits() == b.to_bits() || a.is_nan() && b.is_nan())
}

fn stretch(t: &mut Turn, over: Over, tells: bool) -> u8 {
    let Shape { maximum, margin, accepted, length } = t.random.shape();
    let settings @ Settings { phases, .. } = t.random.settings(false);
    let long = if let Over::Table = over { settings.length } else { 0 };
    let table: Memory<f64> = t.memory.table.lend(&mut t.random, t.memory.doubles, long);
    let taps = match over {
        Over::Kernel(kernel) => (kernel.reads)(taps(&mut t.random)),
        Over::Table => settings.taps as u64,
    };
    let lends = Lends { taps, phases, values: table.slice() };
    let [inputs, delays, outs] = lengths(&mut t.random);
    let inputs: Vec<f64> = (0..inputs).map(|_| t.random.sample()).collect();
    // most delays are good ones, or no stretch would get far
    let delays: Vec<f64> = (0..delays)
        .map(|_| if t.random.one_in(4) { t.random.delay(length) } else { t.random.unit() * 40.0 })
        .collect();
    let lent = t.memory.inputs.lend(&mut t.random, t.memory.doubles, inputs.len());
    lent.slice().copy_from_slice(&inputs);
    let ways = t.memory.delays.lend(&mut t.random, t.memory.doubles, delays.len());
    ways.slice().copy_from_slice(&delays);
    let ring = t.memory.ring.lend(&mut t.random, t.memory.doubles, length);
    let out = t.memory.source.lend(&mut t.random, t.memory.doubles, outs);
    let before: Vec<f64> = out.slice().to_vec();
    let mut single = Reader { maximum, margin, accepted, ring: ring.slice().to_vec() };
    let mut reader = ManuallyDrop::new(Reader { maximum, margin, accepted, ring: ring.vector() });
    let mut items = Items { inputs: lent.slice(), delays: ways.slice(), done: usize::MAX };
    let word = t.random.word();
    let around = Absent { unwritten: word, ahead: !word, overwritten: word };
    let mut absent = [around; 3];
    let number = over.stretch(&mut reader, &mut items, &lends, out.slice(), tells.then_some(&mut absent[1]));
    let done = items.done;
    t.hold(number <= 8, "the answer is no refusal's number");
    t.hold((reader.maximum, reader.margin) == (maximum, margin), "something beside the count is written");
    t.hold(out.zone_kept() && ring.zone_kept() && table.kept(), "something beside the ring and the output is written");
    let kept = |lent: &Memory<f64>, was: &[f64]| lent.zone_kept() && same(lent.slice(), was);
    t.hold(kept(&lent, &inputs) && kept(&ways, &delays), "the inputs or the delays have changed");

    // the single calls in order; without an item, a call that only the first three tests can refuse
    let alike = inputs.len() == delays.len() && outs == inputs.len();
    let mut right = before;
    let (mut due, mut at, mut sums) = (0, 0, Absent::default());
    let mut probe = single.clone();
    let first = match over.single(&mut probe, 0.0, 0.0, &lends, &mut 0.0) {
        1 => 1,
        _ if !alike => 2,
        number @ (2 | 3) => number,
        _ => 0,
    };
    if first != 0 {
        due = first;
    } else {
        while at < inputs.len() {
            let newest = single.accepted;
            let mut sample = 0.0;
            due = over.single(&mut single, inputs[at], delays[at], &lends, &mut sample);
            if due != 0 {
                break;
            }
            let one = told::reckoned(newest, length, delays[at], lends.taps);
            sums.unwritten += one.unwritten;
            sums.ahead += one.ahead;
            sums.overwritten += one.overwritten;
            right[at] = sample;
            at += 1;
        }
    }
    t.hold((number, done) == (due, at), "a stretch ends elsewhere than the single calls");
    t.hold(reader.accepted == single.accepted, "a stretch leaves another count than the single calls");
    t.hold(same(&reader.ring, &single.ring), "a stretch leaves another ring than the single calls");
    t.hold(same(out.slice(), &right), "a stretch leaves another output than the single calls");
    out.slice()[..done].iter().for_each(|&x| t.saw(x));
    let right = if tells { sums } else { around };
    t.hold(absent == [around, right, around], "the absent taps are not those of a plain reckoning");
    number
}
