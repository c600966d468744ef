//! W11. Both oversampled readers, with the refusal that is due worked out plainly, and the absent taps of those that tell
//! them. Guard bytes stand beside every slice that is lent.

use super::{
    memory::Lent,
    oversampled::{taps, taps_ok},
    readers,
    tables::Settings,
    told::{reckoned, told},
    turn::Turn,
};
use crate::{random::Random, Export};
use boundary::{filter_output, filter_push, Absent, Cascaded, Named, Oversampled};
use std::mem::ManuallyDrop;

pub const EXPORTS: &[Export] = &[
    ("fugnadri_oversampled_open", |t| renewed(t, true, true)),
    ("fugnadri_oversampled_reset", |t| renewed(t, true, false)),
    ("fugnadri_oversampled_process", |t| process(t, true, false)),
    ("fugnadri_oversampled_process_told", |t| process(t, true, true)),
    ("fugnadri_cascaded_open", |t| renewed(t, false, true)),
    ("fugnadri_cascaded_reset", |t| renewed(t, false, false)),
    ("fugnadri_cascaded_process", |t| process(t, false, false)),
    ("fugnadri_cascaded_process_told", |t| process(t, false, true)),
];

/// 2^34: the largest delay, and the largest accepted number.
const END: u64 = 1 << 34;

/// A reader's numbers, mostly those of an open one, and what is lent to it: the coefficients, the histories, the ring.
struct Drawn {
    maximum: usize,
    margin: usize,
    factor: usize,
    taps: usize,
    accepted: u64,
    inner: u64,
    previous: f64,
    coefficients: Vec<Lent<f64>>,
    histories: Vec<Lent<f64>>,
    ring: Lent<f64>,
    own: bool,
    /// Whether the coefficients have their lengths, and whether the rest does.
    designed: bool,
    held: bool,
}

fn drawn(t: &mut Turn, direct: bool) -> Drawn {
    let r = &mut t.random;
    let (factor, taps) = match direct {
        true if r.one_in(24) => (r.pick(&[0, 1, 3, 8, usize::MAX]), taps(r)),
        true => (r.pick(&[2, 4]), taps(r)),
        false => (4, 129),
    };
    let (mut maximum, mut margin) = ((r.word() % 60) as usize, (r.word() % 20) as usize);
    match r.word() % 64 {
        0 => maximum = r.whole() as usize,
        1 => margin = r.whole() as usize,
        2 => maximum = r.pick(&[1 << 22, (1 << 22) + 1, 1 << 23, 1 << 24, usize::MAX]),
        _ => {}
    }
    let need = factor as u128 * maximum as u128 + 2 * margin as u128 + 8;
    let own = taps_ok(taps) && [2, 4].contains(&factor) && need <= 1 << 24;
    // what the settings need, or anything where they are out of range or the ring is too long to be lent often
    let right = if own && need <= 1 << 12 { (need as usize).next_power_of_two() } else { 64 };
    let (tapped, split) = if own { (taps, taps.div_ceil(factor)) } else { (17, 9) };
    let (designs, histories) = match direct {
        true => (vec![tapped], vec![split, tapped]),
        false => (vec![65, 129], vec![33, 33, 65, 129]),
    };
    let accepted = match r.word() % 8 {
        0 => END - r.word() % 3,
        1 => r.whole(),
        _ => r.word() % 1000,
    };
    let all = (factor as u64).wrapping_mul(accepted);
    let inner = match r.word() % 16 {
        0 => r.whole(),
        1 => all.wrapping_add(1),
        _ => all.saturating_sub(r.word() % 3),
    };
    let previous = if r.one_in(2) { r.ranged(0.0, END as f64) } else { r.unit() * 40.0 };
    let mut regions = t.memory.filters.iter();
    let mut lend = |needed: &[usize]| -> (Vec<Lent<f64>>, bool) {
        let lengths: Vec<usize> = needed.iter().map(|n| t.random.length(*n, 256)).collect();
        let fits = lengths == needed;
        (lengths.iter().map(|n| regions.next().unwrap().lend(&mut t.random, t.memory.doubles, *n)).collect(), fits)
    };
    let ((coefficients, designed), (histories, kept)) = (lend(&designs), lend(&histories));
    let length = t.random.length(right, 1 << 24);
    let ring = t.memory.ring.lend(&mut t.random, t.memory.doubles, length);
    let held = kept && need <= 1 << 24 && length == (need as usize).next_power_of_two();
    Drawn {
        maximum,
        margin,
        factor,
        taps,
        accepted,
        inner,
        previous,
        coefficients,
        histories,
        ring,
        own,
        designed,
        held,
    }
}

/// The same reader for the boundary, over the same memory.
enum Reader {
    Direct(ManuallyDrop<Oversampled>),
    Cascade(ManuallyDrop<Cascaded>),
}

impl Drawn {
    fn reader(&self) -> Reader {
        let &Drawn { maximum, margin, factor, taps, accepted, inner, previous, .. } = self;
        let (c, h, ring) = (&self.coefficients, &self.histories, self.ring.vector());
        match c.len() {
            1 => Reader::Direct(ManuallyDrop::new(Oversampled {
                maximum,
                margin,
                factor,
                taps,
                accepted,
                inner,
                previous,
                coefficients: c[0].vector(),
                up: h[0].vector(),
                down: h[1].vector(),
                ring,
            })),
            _ => Reader::Cascade(ManuallyDrop::new(Cascaded {
                maximum,
                margin,
                accepted,
                inner,
                previous,
                halfband: c[0].vector(),
                last: c[1].vector(),
                up1: h[0].vector(),
                up2: h[1].vector(),
                down2: h[2].vector(),
                down1: h[3].vector(),
                ring,
            })),
        }
    }

    /// 1, 2 or 3, the first that is due; 0 for none.
    fn due(&self, own: bool, lent: bool, opens: bool) -> u8 {
        let counts = self.accepted <= END && self.inner <= self.factor as u64 * self.accepted;
        match () {
            _ if !(self.own && own) => 1,
            _ if !lent => 2,
            _ if !opens && !(counts && (0.0..=END as f64).contains(&self.previous)) => 3,
            _ => 0,
        }
    }

    fn written(&self) -> impl Iterator<Item = &Lent<f64>> {
        self.histories.iter().chain([&self.ring])
    }

    fn same_numbers(&self, r: &Reader) -> bool {
        let (accepted, inner, previous) = r.numbers();
        (accepted, inner, previous.to_bits()) == (self.accepted, self.inner, self.previous.to_bits())
    }
}

impl Reader {
    fn numbers(&self) -> (u64, u64, f64) {
        match self {
            Reader::Direct(d) => (d.accepted, d.inner, d.previous),
            Reader::Cascade(d) => (d.accepted, d.inner, d.previous),
        }
    }

    fn process(&mut self, named: Named, input: f64, delay: f64, sample: &mut f64) -> u8 {
        match self {
            Reader::Direct(d) => d.process(named, input, delay, sample),
            Reader::Cascade(d) => d.process(named, input, delay, sample),
        }
    }

    fn process_told(&mut self, named: Named, input: f64, delay: f64, sample: &mut f64, absent: &mut Absent) -> u8 {
        match self {
            Reader::Direct(d) => d.process_told(named, input, delay, sample, absent),
            Reader::Cascade(d) => d.process_told(named, input, delay, sample, absent),
        }
    }
}

/// The inner samples of an accepted call, as the filters give them, which `filter_output`'s own turn holds to a plain
/// sum; `histories` are the upsamplers' before it.
fn raised(d: &Drawn, histories: &[Vec<f64>], input: f64) -> Vec<f64> {
    let (c, n) = (d.coefficients[0].slice(), d.accepted);
    let mut first = histories[0].clone();
    filter_push(&mut first, n, input);
    if d.coefficients.len() == 1 {
        let (factor, rate) = (d.factor, d.factor as f64);
        return (0..factor).map(|k| filter_output(c, &first, n + 1, factor, k) * rate).collect();
    }
    let mut second = histories[1].clone();
    let mut all = Vec::new();
    for p in 0..2 {
        let twice = 2 * n + p;
        filter_push(&mut second, twice, filter_output(c, &first, n + 1, 2, p as usize) * 2.0);
        (0..2).for_each(|q| all.push(filter_output(c, &second, twice + 1, 2, q) * 2.0));
    }
    all
}

/// The sums over the inner readings, tap by tap: a sample that is not finite is not read, and does not count.
fn summed(d: &Drawn, histories: &[Vec<f64>], input: f64, delay: f64, taps: u64) -> Absent {
    let (rate, from) = (d.factor as f64, if d.accepted == 0 { delay } else { d.previous });
    let (mut sum, mut inner) = (Absent::default(), d.inner);
    for (k, x) in raised(d, histories, input).into_iter().enumerate() {
        if x.is_finite() {
            let y = (from + (k + 1) as f64 / rate * (delay - from)) * rate;
            let one = reckoned(inner, d.ring.slice().len(), y, taps);
            sum.unwritten += one.unwritten;
            sum.ahead += one.ahead;
            sum.overwritten += one.overwritten;
            inner += 1;
        }
    }
    sum
}

fn renewed(t: &mut Turn, direct: bool, opens: bool) -> u8 {
    let d = drawn(t, direct);
    let mut reader = d.reader();
    let number = match (&mut reader, opens) {
        (Reader::Direct(r), true) => r.open(),
        (Reader::Direct(r), false) => r.reset(),
        (Reader::Cascade(r), true) => r.open(),
        (Reader::Cascade(r), false) => r.reset(),
    };
    t.hold(number == d.due(true, d.held && (d.designed || !opens), opens), "another refusal is due");
    if number == 0 {
        let (accepted, inner, previous) = reader.numbers();
        let zero = d.written().all(|s| s.zone_kept() && s.slice().iter().all(|x| x.to_bits() == 0));
        t.hold(
            zero && (accepted, inner, previous.to_bits()) == (0, 0, 0),
            "an accepted call leaves something else than zeros",
        );
        let designed =
            |c: &Lent<f64>| if opens { c.zone_kept() && c.slice().iter().all(|x| x.abs() < 1.0) } else { c.kept() };
        t.hold(d.coefficients.iter().all(designed), "the coefficients, or something beside them, have changed");
    } else {
        let kept = d.coefficients.iter().chain(d.written()).all(Lent::kept);
        t.hold(kept && d.same_numbers(&reader), "a refused call has changed something");
    }
    number
}

/// A kernel, mostly one that there is with settings of its own; whether they are in range, and the table's length.
fn named(r: &mut Random, settings: &Settings) -> (u8, usize, usize, bool, usize) {
    let kernel = if r.one_in(24) { r.word() as u8 } else { (r.word() % 4) as u8 };
    let (points, phases) = match kernel {
        3 => (settings.taps, settings.phases),
        1 => (readers::taps(r) as usize, r.word() as usize),
        _ => (r.word() as usize, r.word() as usize),
    };
    let even = points % 2 == 0;
    match kernel {
        0 | 2 => (kernel, points, phases, true, 0),
        1 => (kernel, points, phases, even && (2..=16).contains(&points), 0),
        3 if even && (4..=128).contains(&points) && (2..=4096).contains(&phases) => {
            (kernel, points, phases, true, (phases + 1) * points)
        }
        _ => (kernel, points, phases, false, 0),
    }
}

fn process(t: &mut Turn, direct: bool, tells: bool) -> u8 {
    let d = drawn(t, direct);
    let settings = t.random.settings(false);
    let (kernel, points, phases, own, needed) = named(&mut t.random, &settings);
    let length = if kernel == 3 { settings.length } else { t.random.length(0, 8) };
    let table: Lent<f64> = t.memory.table.lend(&mut t.random, t.memory.doubles, length);
    let input = t.random.sample();
    let delay = if t.random.one_in(4) { t.random.ranged(0.0, END as f64) } else { t.random.unit() * 40.0 };
    let mut reader = d.reader();
    let lent = Named { kernel, points, phases, table: table.slice() };
    let number = if tells {
        let before: Vec<Vec<f64>> = d.histories.iter().map(|h| h.slice().to_vec()).collect();
        let taps = [4, points as u64, 8, points as u64][kernel as usize % 4];
        let right = || summed(&d, &before, input, delay, taps);
        told(t, right, |t, a| t.value(|_, v| reader.process_told(lent, input, delay, v, a)))
    } else {
        t.value(|_, v| reader.process(lent, input, delay, v))
    };
    let due = match d.due(own, d.designed && d.held && length == needed, false) {
        0 if !input.is_finite() => 4,
        0 if !(delay.is_finite() && delay >= 0.0) => 5,
        0 if delay > END as f64 => 6,
        0 if d.accepted >= END => 8,
        no => no,
    };
    t.hold(number == due, "another refusal is due");
    t.hold(table.kept() && d.coefficients.iter().all(Lent::kept), "the table or the coefficients have changed");
    if number == 0 {
        let (accepted, inner, previous) = reader.numbers();
        let counts = accepted == d.accepted + 1 && (d.inner..=d.inner + d.factor as u64).contains(&inner);
        t.hold(counts && previous.to_bits() == delay.to_bits(), "an accepted call leaves other numbers");
        t.hold(d.written().all(Lent::one_nan), "a NaN is stored with another pattern than the one");
        let up = &d.histories[0];
        let place = (accepted % up.slice().len() as u64) as usize;
        t.hold(
            d.written().all(Lent::zone_kept) && up.stored(place, input),
            "another sample is pushed, or something beside a slice has changed",
        );
    } else {
        t.hold(d.written().all(Lent::kept) && d.same_numbers(&reader), "a refused call has changed something");
    }
    number
}
