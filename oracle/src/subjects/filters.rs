//! W11. The filters of the oversampled readers: all that the readers can have, coefficient by coefficient beside the
//! original's, and others; both kinds over recorded and hostile samples, output by output; designs that are refused.

use crate::context::Context;
use crate::delays::{hostile, plain};
use crate::random::Random;
use wow_dsp::{design_lowpass, DecimatingFir, PolyphaseUpsampler};

#[derive(Clone, Copy, Debug)]
struct Design {
    taps: usize,
    cutoff: f64,
    beta: f64,
}

fn differ(what: &str, at: impl std::fmt::Debug, rust: impl std::fmt::Debug, port: impl std::fmt::Debug) -> ! {
    println!("DIFFERENCE in {what}: {at:?}");
    println!("  Rust {rust:X?}, Fugnadri {port:X?}");
    std::process::exit(1)
}

fn same(what: &str, at: impl std::fmt::Debug, rust: f64, port: f64) {
    let pattern = if rust.is_nan() { 0x7ff8_0000_0000_0000 } else { rust.to_bits() };
    if pattern != port.to_bits() {
        differ(what, at, pattern, port.to_bits())
    }
}

/// A design of both sides, coefficient by coefficient; the port's with those left out that 000's `new` leaves out.
fn designed(design @ Design { taps, cutoff, beta }: Design) -> (Vec<f64>, Vec<f64>) {
    let right = design_lowpass(taps, cutoff, beta);
    let mut out = vec![0.0; taps];
    let number = boundary::design_lowpass(taps, cutoff, beta, &mut out);
    if number != 0 {
        differ("a design", design, 0, number)
    }
    (0..taps).for_each(|k| same("a design", (design, k), right[k], out[k]));
    boundary::filter_keep(&mut out);
    (right, out)
}

/// A filter of the port's, whose pushes are counted on or handed in as a head.
struct Port {
    coefficients: Vec<f64>,
    history: Vec<f64>,
    pushes: u64,
    factor: usize,
    head: bool,
}

impl Port {
    fn new(coefficients: &[f64], factor: usize, head: bool) -> Self {
        let history = vec![0.0; boundary::filter_history(coefficients.len(), factor)];
        Port { coefficients: coefficients.to_vec(), history, pushes: 0, factor, head }
    }

    fn pushes(&self) -> u64 {
        if self.head {
            self.pushes % self.history.len() as u64
        } else {
            self.pushes
        }
    }

    fn push(&mut self, input: f64) {
        let pushes = self.pushes();
        boundary::filter_push(&mut self.history, pushes, input);
        self.pushes += 1;
    }

    fn output(&self, phase: usize) -> f64 {
        boundary::filter_output(&self.coefficients, &self.history, self.pushes(), self.factor, phase)
    }

    fn outputs(&self, phase: usize) -> [f64; 2] {
        let (mut first, mut second) = (0.0, 0.0);
        boundary::filter_outputs(&self.coefficients, &self.history, self.pushes(), self.factor, phase, &mut first, &mut second);
        [first, second]
    }
}

/// An upsampler by FACTOR, and a decimator of the same design behind it; how many outputs were compared.
fn filtered<const FACTOR: usize>(random: &mut Random, design: Design, samples: usize) -> u64 {
    let (right, kept) = designed(design);
    let (mut up, mut down) = (PolyphaseUpsampler::<FACTOR>::new(&right), DecimatingFir::new(right));
    let head = random.within(0, 1) == 0;
    let (mut port_up, mut port_down) = (Port::new(&kept, FACTOR, head), Port::new(&kept, 1, !head));
    if (up.history.len(), down.history.len()) != (port_up.history.len(), port_down.history.len()) {
        differ("the histories' lengths", design, up.history.len(), port_up.history.len())
    }
    let latency = (design.taps - 1) as f64 / FACTOR as f64;
    same("the latency", (design, FACTOR), latency, boundary::filter_latency(design.taps, FACTOR));
    let rough = random.within(0, 2) == 0;
    for k in 0..samples {
        // a while of plain samples behind the hostile ones, so that finite sums come back
        let input = if rough && k % 256 < 40 { hostile(random) } else { plain(random) };
        up.push(input);
        port_up.push(input);
        for phase in 0..FACTOR {
            let output = up.output(phase);
            same("an upsampler's output", (design, FACTOR, k, phase), output, port_up.output(phase));
            let both = port_up.outputs(phase & !1);
            same("an upsampler's two outputs", (design, FACTOR, k, phase), output, both[phase & 1]);
            down.push(output);
            port_down.push(output);
        }
        same("a decimator's output", (design, k), down.output(), port_down.output(0));
    }
    let histories = [("an upsampler's history", &up.history, &port_up.history), ("a decimator's history", &down.history, &port_down.history)];
    for (what, right, port) in histories {
        (0..right.len()).for_each(|k| same(what, (design, FACTOR, k), right[k], port[k]));
    }
    (samples * (2 * FACTOR + 1)) as u64
}

/// Every filter that a reader can have: 57 for each factor, and the two of the cascade.
fn every(context: &mut Context) {
    let (mut coefficients, mut outputs) = (0, 0);
    for taps in (17..=129).step_by(2) {
        let design = |factor| Design { taps, cutoff: 0.9 / factor, beta: 10.0 };
        coefficients += 2 * taps as u64;
        outputs += filtered::<2>(&mut context.random, design(2.0), 600);
        outputs += filtered::<4>(&mut context.random, design(4.0), 600);
    }
    for (taps, cutoff) in [(65, 0.5), (129, 0.45)] {
        coefficients += taps as u64;
        outputs += filtered::<2>(&mut context.random, Design { taps, cutoff, beta: 10.0 }, 2000);
    }
    context.count("filters", "coefficients of the readers' filters", coefficients, None);
    context.count("filters", "outputs of the readers' filters", outputs, None);
}

/// Settings in range, their ends among them.
fn settings(random: &mut Random) -> Design {
    let taps = match random.within(0, 3) {
        0 => random.pick(&[17, 19, 127, 129]),
        _ => 17 + 2 * random.within(0, 56) as usize,
    };
    let cutoff = match random.within(0, 3) {
        0 => random.pick(&[0.0009765625, 0.0009765625f64.next_up(), 1.0f64.next_down(), 0.5, 0.25]),
        _ => 0.0009765625 + random.unit() * (1.0 - 0.0009765625),
    };
    let beta = match random.within(0, 3) {
        0 => random.pick(&[0.0, -0.0, 20.0, 5e-324, 10.0]),
        _ => random.unit() * 20.0,
    };
    Design { taps, cutoff, beta }
}

/// One setting out of range, or another length: the number that is due, and nothing written.
fn refused(random: &mut Random) {
    let mut d = settings(random);
    let (mut length, mut due) = (d.taps, 1);
    match random.within(0, 3) {
        0 => d.taps = random.pick(&[0, 1, 15, 16, 18, 128, 130, 131, usize::MAX]),
        1 => d.cutoff = random.pick(&[0.0, -0.5, 0.0009765625f64.next_down(), 1.0, f64::NAN, f64::INFINITY]),
        2 => d.beta = random.pick(&[-5e-324, 20.0f64.next_up(), f64::NAN, f64::INFINITY]),
        _ => (length, due) = (random.pick(&[0, 1, d.taps - 1, d.taps + 1, 2 * d.taps]), 2),
    }
    let before: Vec<f64> = (0..length).map(|_| random.unit()).collect();
    let mut out = before.clone();
    let number = boundary::design_lowpass(d.taps, d.cutoff, d.beta, &mut out);
    if number != due || out != before {
        differ("a design that is refused", (d, length), due, number)
    }
}

pub fn run(context: &mut Context) {
    if context.round == 0 {
        every(context)
    }
    let (mut coefficients, mut outputs) = (0, 0);
    for _ in 0..16 {
        let design = settings(&mut context.random);
        coefficients += design.taps as u64;
        outputs += filtered::<2>(&mut context.random, design, 300);
        outputs += filtered::<4>(&mut context.random, design, 300);
        refused(&mut context.random);
    }
    context.count("filters", "coefficients of other filters", coefficients, None);
    context.count("filters", "outputs of other filters", outputs, None);
    context.count("filters", "designs refused", 16, None);
}
