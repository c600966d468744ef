//! W11. The oversampled readers beside the original's, call by call: both readers, both factors, every number of taps,
//! every kernel, wandering and leaping delays, and amplitudes that overflow inside. After a call that it should refuse
//! the original has gone on, so refused calls are made on the port's side alone, and must change nothing there.
//!
//! W11f. Every second call tells its absent taps: the original's inner kernel notes which indices it asks for, and each
//! of them is counted by the ring's rule.

use crate::context::Context;
use crate::delays::{hostile, plain};
use crate::random::Random;
use boundary::{Absent, Cascaded, Named, Oversampled};
use std::cell::RefCell;
use std::rc::Rc;
use wow_dsp::{
    CascadedOversampledVariableDelay4x, CubicFarrow, Farrow8, Kernel, Lagrange, OversampledVariableDelay, SampleSource,
    WindowedSinc,
};

/// The indices that each reading since the last look asked for.
type Asked = Rc<RefCell<Vec<Vec<i64>>>>;

/// A kernel of the original that notes what it asks for.
struct Noted<K>(K, Asked);

struct Noting<'a, S>(&'a S, RefCell<Vec<i64>>);

impl<S: SampleSource> SampleSource for Noting<'_, S> {
    fn at(&self, index: i64) -> f64 {
        self.1.borrow_mut().push(index);
        self.0.at(index)
    }
}

impl<K: Kernel> Kernel for Noted<K> {
    fn sample<S: SampleSource>(&self, source: &S, position: f64) -> f64 {
        let noting = Noting(source, RefCell::default());
        let y = self.0.sample(&noting, position);
        self.1.borrow_mut().push(noting.1.into_inner());
        y
    }
    fn name(&self) -> &'static str {
        self.0.name()
    }
}

/// What the indices say: the readings stand behind the inner samples from number `inner` on, one each.
fn counted(readings: Vec<Vec<i64>>, inner: u64, length: usize) -> Absent {
    let mut absent = Absent::default();
    for (newest, asked) in (inner as i64..).zip(readings) {
        for index in asked {
            absent.unwritten += u64::from(index < 0);
            absent.ahead += u64::from(index > newest);
            absent.overwritten += u64::from(index >= 0 && newest - index >= length as i64);
        }
    }
    absent
}

fn differ(what: &str, at: impl std::fmt::Debug, rust: impl std::fmt::Debug, port: impl std::fmt::Debug) -> ! {
    println!("DIFFERENCE in {what}: {at:?}");
    println!("  Rust {rust:X?}, Fugnadri {port:X?}");
    std::process::exit(1)
}

fn pattern(x: f64) -> u64 {
    if x.is_nan() {
        0x7ff8_0000_0000_0000
    } else {
        x.to_bits()
    }
}

fn same(what: &str, at: impl std::fmt::Debug, rust: f64, port: f64) {
    if pattern(rust) != pattern(port) {
        differ(what, at, rust.to_bits(), port.to_bits())
    }
}

/// What is compared of a reader: its slices, the inner accepted number and the previous delay.
type Parts<'a> = (Vec<&'a [f64]>, u64, f64);

trait Original {
    fn process(&mut self, input: f64, delay: f64) -> f64;
    fn reset(&mut self);
    fn parts(&self) -> Parts<'_>;
    fn latency(&self) -> f64;
}

impl<K: Kernel, const FACTOR: usize> Original for OversampledVariableDelay<K, FACTOR> {
    fn process(&mut self, input: f64, delay: f64) -> f64 {
        self.process_sample(input, delay)
    }
    fn reset(&mut self) {
        OversampledVariableDelay::reset(self)
    }
    fn parts(&self) -> Parts<'_> {
        let slices = vec![&self.upsampler.history[..], &self.downsampler.history, &self.reader.buffer];
        (slices, self.reader.write_index as u64, self.previous_delay)
    }
    fn latency(&self) -> f64 {
        self.latency_samples()
    }
}

impl<K: Kernel> Original for CascadedOversampledVariableDelay4x<K> {
    fn process(&mut self, input: f64, delay: f64) -> f64 {
        self.process_sample(input, delay)
    }
    fn reset(&mut self) {
        CascadedOversampledVariableDelay4x::reset(self)
    }
    fn parts(&self) -> Parts<'_> {
        let slices = vec![
            &self.up1.history[..],
            &self.up2.history,
            &self.down2.history,
            &self.down1.history,
            &self.reader.buffer,
        ];
        (slices, self.reader.write_index as u64, self.previous_delay)
    }
    fn latency(&self) -> f64 {
        self.latency_samples()
    }
}

/// The port's readers: a factor of 2 or 4 and taps, or the cascade.
#[derive(Clone)]
enum Port {
    Direct(Oversampled),
    Cascade(Cascaded),
}

impl Port {
    /// A reader over slices that hold anything; opening zeroes them.
    fn open(shape: Shape) -> Self {
        let Shape { maximum, margin, factor, taps } = shape;
        let lent = |n| vec![-1.5; n];
        let ring = lent((factor.max(1) * maximum + 2 * margin + 8).next_power_of_two());
        let (accepted, inner, previous) = (7, 9, 3.0);
        let mut port = match taps {
            0 => Port::Cascade(Cascaded {
                maximum,
                margin,
                accepted,
                inner,
                previous,
                halfband: lent(65),
                last: lent(129),
                up1: lent(33),
                up2: lent(33),
                down2: lent(65),
                down1: lent(129),
                ring,
            }),
            _ => Port::Direct(Oversampled {
                maximum,
                margin,
                factor,
                taps,
                accepted,
                inner,
                previous,
                coefficients: lent(taps),
                up: lent(boundary::filter_history(taps, factor)),
                down: lent(taps),
                ring,
            }),
        };
        let number = match &mut port {
            Port::Direct(d) => d.open(),
            Port::Cascade(d) => d.open(),
        };
        if number != 0 {
            differ("an opening", shape, 0, number)
        }
        port
    }

    fn reset(&mut self) -> u8 {
        match self {
            Port::Direct(d) => d.reset(),
            Port::Cascade(d) => d.reset(),
        }
    }

    fn process(&mut self, kernel: Named, input: f64, delay: f64) -> (u8, f64) {
        let mut sample = 0.5;
        let number = match self {
            Port::Direct(d) => d.process(kernel, input, delay, &mut sample),
            Port::Cascade(d) => d.process(kernel, input, delay, &mut sample),
        };
        (number, sample)
    }

    fn process_told(&mut self, kernel: Named, input: f64, delay: f64) -> (u8, f64, Absent) {
        let (mut sample, mut a) = (0.5, Absent { unwritten: 9, ahead: 9, overwritten: 9 });
        let number = match self {
            Port::Direct(d) => d.process_told(kernel, input, delay, &mut sample, &mut a),
            Port::Cascade(d) => d.process_told(kernel, input, delay, &mut sample, &mut a),
        };
        (number, sample, a)
    }

    fn parts(&self) -> Parts<'_> {
        match self {
            Port::Direct(d) => (vec![&d.up[..], &d.down, &d.ring], d.inner, d.previous),
            Port::Cascade(d) => (vec![&d.up1[..], &d.up2, &d.down2, &d.down1, &d.ring], d.inner, d.previous),
        }
    }

    fn accepted(&mut self) -> &mut u64 {
        match self {
            Port::Direct(d) => &mut d.accepted,
            Port::Cascade(d) => &mut d.accepted,
        }
    }

    fn previous(&mut self) -> &mut f64 {
        match self {
            Port::Direct(d) => &mut d.previous,
            Port::Cascade(d) => &mut d.previous,
        }
    }

    fn ring(&mut self) -> &mut Vec<f64> {
        match self {
            Port::Direct(d) => &mut d.ring,
            Port::Cascade(d) => &mut d.ring,
        }
    }
}

/// Taps 0 stand for the cascade, whose factor is 4.
#[derive(Clone, Copy, Debug)]
struct Shape {
    maximum: usize,
    margin: usize,
    factor: usize,
    taps: usize,
}

fn compare(what: &str, at: impl std::fmt::Debug + Copy, rust: Parts, port: Parts) {
    if (rust.1, pattern(rust.2)) != (port.1, pattern(port.2)) {
        differ(what, at, (rust.1, rust.2), (port.1, port.2))
    }
    for (which, (right, ours)) in rust.0.iter().zip(&port.0).enumerate() {
        if right.len() != ours.len() {
            differ(what, (at, which), right.len(), ours.len())
        }
        (0..right.len()).for_each(|k| same(what, (at, which, k), right[k], ours[k]));
    }
}

/// A call that is refused: its number, and that nothing has changed.
fn refused(random: &mut Random, shape: Shape, port: &mut Port, kernel: Named) {
    let mut odd = port.clone();
    let (mut named, mut input, mut delay) = (kernel, 0.25, 1.0);
    let due = match random.within(0, 7) {
        0 => {
            named.kernel = random.within(4, 255) as u8;
            1
        }
        1 => {
            odd.ring().pop();
            2
        }
        2 => {
            *odd.accepted() = (1 << 34) + 1;
            3
        }
        3 => {
            *odd.previous() = random.pick(&[-1.0, f64::NAN, f64::INFINITY, 17_179_869_184f64.next_up()]);
            3
        }
        4 => {
            input = random.pick(&[f64::NAN, f64::INFINITY, f64::NEG_INFINITY]);
            4
        }
        5 => {
            delay = random.pick(&[f64::NAN, f64::INFINITY, -5e-324, -1.0]);
            5
        }
        6 => {
            delay = random.pick(&[17_179_869_184f64.next_up(), f64::MAX]);
            6
        }
        _ => {
            *odd.accepted() = 1 << 34;
            8
        }
    };
    let (mut before, mut after) = (odd.clone(), odd);
    let (number, sample, absent) = after.process_told(named, input, delay);
    if absent != Absent::default() {
        differ("the absent taps of a refused call", (shape, input, delay), Absent::default(), absent)
    }
    if number != due || sample.to_bits() != 0 || *after.accepted() != *before.accepted() {
        differ("a refused call", (shape, input, delay), due, (number, sample))
    }
    compare("a refused call's parts", shape, before.parts(), after.parts());
}

/// What was compared: calls, those whose sample is finite and not zero, those that stand behind an overflow inside, by
/// which the inner accepted number has fallen behind, refused calls, and told calls, those with an absent tap.
#[derive(Default)]
struct Counts {
    calls: u64,
    telling: u64,
    overflowed: u64,
    refused: u64,
    told: u64,
    absent: u64,
}

/// One reader over some calls.
fn beside(
    random: &mut Random,
    shape: Shape,
    mut rust: Box<dyn Original>,
    asked: Asked,
    kernel: Named,
    calls: usize,
    counts: &mut Counts,
) {
    let mut port = Port::open(shape);
    compare("an opening", shape, rust.parts(), port.parts());
    let latency = match shape.taps {
        0 => boundary::cascaded_latency(),
        taps => boundary::filter_latency(taps, shape.factor),
    };
    same("the latency", shape, rust.latency(), latency);
    let (mode, loud) = (random.within(0, 3), random.within(0, 3));
    let most = shape.maximum as f64;
    let mut delay = random.unit() * most;
    let mut since = 0;
    for k in 0..calls {
        let input = match loud {
            0 if k % 200 < 40 => Some(hostile(random)).filter(|x| x.is_finite()).unwrap_or(f64::MAX),
            1 => plain(random) * 10f64.powi(random.within(-300, 308) as i32),
            _ => plain(random),
        };
        delay = match mode {
            0 => random.unit() * most,
            1 => random.pick(&[0.0, -0.0, 1.0, most, 0.5, 17_179_869_184.0, 1e-300, most / 3.0]),
            _ => (delay + random.unit() - 0.5).clamp(0.0, most + 2.0),
        };
        if random.within(0, 40) == 0 {
            refused(random, shape, &mut port, kernel);
            counts.refused += 1
        }
        if random.within(0, 400) == 0 {
            rust.reset();
            since = 0;
            if port.reset() != 0 {
                differ("a reset", shape, 0, 1)
            }
        }
        let inner = port.parts().1;
        asked.borrow_mut().clear();
        let right = rust.process(input, delay);
        let (number, sample) = match k % 2 {
            0 => port.process(kernel, input, delay),
            _ => {
                let (number, sample, absent) = port.process_told(kernel, input, delay);
                let due = counted(asked.take(), inner, port.ring().len());
                if absent != due {
                    differ("the absent taps", (shape, kernel.kernel, kernel.points, k, input, delay), due, absent)
                }
                counts.told += 1;
                counts.absent += u64::from(due != Absent::default());
                (number, sample)
            }
        };
        since += 1;
        if number != 0 || *port.accepted() != since {
            differ(
                "a call's number",
                (shape, kernel.kernel, kernel.points, k, input, delay),
                (0, since),
                (number, *port.accepted()),
            )
        }
        // the sample leaves with the one pattern of a NaN
        if pattern(right) != sample.to_bits() {
            differ("a call", (shape, kernel.kernel, kernel.points, k, input, delay), pattern(right), sample.to_bits())
        }
        counts.calls += 1;
        counts.telling += u64::from(right.is_finite() && right != 0.0);
        counts.overflowed += u64::from(port.parts().1 < shape.factor as u64 * since);
        if k % 61 == 0 || k + 1 == calls {
            compare("a reader's parts", (shape, kernel.kernel, kernel.points, k), rust.parts(), port.parts())
        }
    }
}

fn over<K: Kernel + 'static>(
    random: &mut Random,
    shape: Shape,
    made: K,
    kernel: Named,
    calls: usize,
    counts: &mut Counts,
) {
    let Shape { maximum, margin, factor, taps } = shape;
    let asked = Asked::default();
    let made = Noted(made, asked.clone());
    let rust: Box<dyn Original> = match (taps, factor) {
        (0, _) => Box::new(CascadedOversampledVariableDelay4x::new(maximum, margin, made)),
        (_, 2) => Box::new(OversampledVariableDelay::<Noted<K>, 2>::new(maximum, margin, taps, made)),
        _ => Box::new(OversampledVariableDelay::<Noted<K>, 4>::new(maximum, margin, taps, made)),
    };
    beside(random, shape, rust, asked, kernel, calls, counts)
}

/// One reader with the kernel of this number.
fn one(random: &mut Random, shape: Shape, kernel: u8, calls: usize, counts: &mut Counts) {
    let named = |points| Named { kernel, points, phases: 0, table: &[] };
    macro_rules! lagrange {
        ($points:expr, $($taps:literal)*) => {
            match $points {
                $($taps => over(random, shape, Lagrange::<$taps>, named($taps), calls, counts),)*
                _ => unreachable!(),
            }
        };
    }
    match kernel {
        0 => over(random, shape, CubicFarrow, named(0), calls, counts),
        1 => lagrange!(2 * random.within(1, 8), 2 4 6 8 10 12 14 16),
        2 => over(random, shape, Farrow8, named(0), calls, counts),
        _ => {
            let (taps, phases) = (2 * random.within(2, 32) as usize, random.within(2, 64) as usize);
            let made = WindowedSinc::new(taps, phases, 0.25 + 0.75 * random.unit(), 10.0 * random.unit());
            let table = made.table.clone();
            over(random, shape, made, Named { kernel, points: taps, phases, table: &table }, calls, counts)
        }
    }
}

fn shape(random: &mut Random, factor: usize, taps: usize) -> Shape {
    let maximum = random.pick(&[0, 1, 7, 30, 100, 500, 2000]);
    Shape { maximum, margin: random.within(0, 40) as usize, factor, taps }
}

pub fn run(context: &mut Context) {
    let random = &mut context.random;
    let (mut direct, mut cascade) = (Counts::default(), Counts::default());
    for kernel in 0..4 {
        for factor in [2, 4] {
            // the first round goes through every number of taps
            let taps = match context.round {
                0 => (17..=129).step_by(2).collect(),
                _ => vec![17 + 2 * random.within(0, 56) as usize],
            };
            for taps in taps {
                let of = shape(random, factor, taps);
                one(random, of, kernel, 300, &mut direct)
            }
        }
        let of = shape(random, 4, 0);
        one(random, of, kernel, 600, &mut cascade)
    }
    context.count("oversampled", "calls of the direct reader", direct.calls, Some(direct.telling));
    context.count("oversampled", "calls of the cascaded reader", cascade.calls, Some(cascade.telling));
    context.count("oversampled", "of these after an overflow inside", 0, Some(direct.overflowed + cascade.overflowed));
    context.count("oversampled", "calls refused", direct.refused + cascade.refused, None);
    let (told, absent) = (direct.told + cascade.told, direct.absent + cascade.absent);
    context.count("oversampled", "calls with their absent taps", told, Some(absent));
}
