//! W7. The numbers of absent taps, beside the original's own kernels over a source that notes which index they ask for:
//! each index noted is not yet written, ahead of the newest, overwritten or held, by the ring's rule. The sample, the
//! count and the ring are those of the call that does not tell. For the quality reader, by either rule, 000's bank is
//! asked for each quality that the call reads, and asks for the taps of each set that it reads.

use crate::banks::{self, Bank};
use crate::context::Context;
use crate::delays;
use crate::kernels::{some, Beside};
use crate::qualities::{Call, HOSTS};
use crate::shape::{bits32, bits64};
use crate::subjects::returning::{opened, Read, Reckoned, MODES};
use boundary::{Absent, Reader};
use std::cell::RefCell;
use wow_dsp::{Kernel, KernelF32, SampleSource, SampleSourceF32, WindowedSinc, WindowedSincF32};

#[derive(Default)]
pub struct Noting(RefCell<Vec<i64>>);

impl SampleSource for Noting {
    fn at(&self, index: i64) -> f64 {
        self.0.borrow_mut().push(index);
        0.0
    }
}

impl SampleSourceF32 for Noting {
    fn at_f32(&self, index: i64) -> f32 {
        self.0.borrow_mut().push(index);
        0.0
    }
}

/// What the indices that were asked for say, where sample `newest` is the last that was accepted.
fn counted(asked: &Noting, newest: u64, length: usize) -> Absent {
    let (newest, mut absent) = (newest as i64, Absent::default());
    for &index in asked.0.borrow().iter() {
        if index < 0 {
            absent.unwritten += 1;
        } else if index > newest {
            absent.ahead += 1;
        } else if newest - index >= length as i64 {
            absent.overwritten += 1;
        }
    }
    absent
}

fn stop(name: &str, newest: u64, length: usize, delay: f64, right: Absent, told: Absent) -> ! {
    println!("DIFFERENCE in the absent taps of {name}: sample {newest}, ring of {length}, delay {delay:e} ({:016X})", delay.to_bits());
    println!("  asked for by the Rust: {right:?}, Fugnadri tells {told:?}");
    std::process::exit(1)
}

/// A run of calls of a reader without a table; refused ones stand in between.
fn readers(context: &mut Context, kernel: &Beside) {
    let (name, random) = (format!("{}, told", kernel.name()), &mut context.random);
    let Beside { port, taps, ask, .. } = kernel;
    let (mut compared, mut missing) = (0, 0);
    for _ in 0..16 {
        let (maximum, margin) = delays::settings(random);
        let length = (maximum + 2 * margin + 8).next_power_of_two();
        let mut reader = Reader { maximum, margin, accepted: 0, ring: vec![0.0; length] };
        reader.open();
        let mut plain = reader.clone();
        for _ in 0..64 {
            let (input, delay) = (delays::plain(random), delays::delay(random, length, true));
            let (newest, mut sample, mut absent) = (reader.accepted, [f64::NAN; 2], Absent { unwritten: 9, ahead: 9, overwritten: 9 });
            let number = (port.process_told)(&mut reader, input, delay, *taps, &mut sample[0], &mut absent);
            let alike = number == (port.process)(&mut plain, input, delay, *taps, &mut sample[1])
                && bits64(sample[0]) == bits64(sample[1])
                && reader.accepted == plain.accepted
                && reader.ring == plain.ring;
            let asked = Noting::default();
            if number == 0 {
                ask(&asked, newest as f64 - delay);
            }
            let right = counted(&asked, newest, length);
            if !alike || absent != right {
                stop(&name, newest, length, delay, right, absent);
            }
            missing += (right != Absent::default()) as u64;
            compared += 1;
        }
    }
    context.count(&name, "calls with their absent taps", compared, Some(missing));
}

/// The same over a table of zeros, which asks for its taps like any other, in both widths.
macro_rules! sinc {
    ($run:ident, $name:literal, $of:ty, $sinc:ident, $sample:ident, $told:path) => {
        fn $run(context: &mut Context) {
            let random = &mut context.random;
            let (mut compared, mut missing) = (0, 0);
            for _ in 0..8 {
                let (maximum, margin) = delays::settings(random);
                let length = (maximum + 2 * margin + 8).next_power_of_two();
                let taps = random.pick(&[4, 32, 80, 96, 128]);
                let kernel = $sinc::new(taps, 2, 1.0, 12.0);
                let (mut ring, table) = (vec![0.0 as $of; length], vec![0.0 as $of; 3 * taps]);
                let mut accepted = 0;
                for _ in 0..64 {
                    let (input, delay) = (delays::plain(random) as $of, delays::delay(random, length, true));
                    let (newest, mut sample, mut absent) = (accepted, 0.0, Absent { unwritten: 9, ahead: 9, overwritten: 9 });
                    let number = $told(maximum, margin, &mut accepted, &mut ring, input, delay, &table, taps, 2, &mut sample, &mut absent);
                    let asked = Noting::default();
                    if number == 0 {
                        kernel.$sample(&asked, newest as f64 - delay);
                    }
                    let right = counted(&asked, newest, length);
                    if absent != right {
                        stop($name, newest, length, delay, right, absent);
                    }
                    missing += (right != Absent::default()) as u64;
                    compared += 1;
                }
            }
            context.count($name, "calls with their absent taps", compared, Some(missing));
        }
    };
}

sinc!(sinc, "sinc, told", f64, WindowedSinc, sample, boundary::sinc_process_told);
sinc!(sinc_f32, "sinc f32, told", f32, WindowedSincF32, sample_f32, boundary::sinc_f32_process_told);

/// The absent taps of a call of the quality reader, by what the original's bank asks for in each quality that it reads.
pub fn absent_of(bank: &Bank, read: Read, newest: u64, ring: usize, delay: f64, rate: f64) -> Absent {
    let asked = Noting::default();
    let ask = |quality: u8| {
        bank.rust.sample(&asked, newest as f64 - delay, MODES[quality as usize], rate);
    };
    if read.weight.is_some() {
        ask(read.from);
    }
    ask(read.to);
    counted(&asked, newest, ring)
}

/// Runs of the quality reader, in one of host/'s two ways: qualities change, and refused calls stand in between.
fn qualities(context: &mut Context, bank: &'static Bank, returning: bool, length: u32) {
    const NAME: &str = "quality reader, told";
    let random = &mut context.random;
    let (mut compared, mut missing) = (0, 0);
    for _ in 0..4 {
        let (maximum, margin) = delays::settings(random);
        let (leniently, mut quality) = (random.coin(), random.within(0, 3) as u8);
        let open = || opened(bank, leniently, returning, maximum, margin, HOSTS[quality as usize], length);
        let (mut told, mut plain, mut fade) = (open(), open(), Reckoned::new(returning, length, quality));
        let ring = told.state().ring.len();
        for _ in 0..128 {
            if random.within(0, 2) == 0 {
                quality = random.within(0, 3) as u8;
            }
            let rate = match random.within(0, 9) {
                0 => None,
                1 => Some(f64::NAN),
                2 => Some(bank.max_rate),
                _ => Some(1.0 + 1.2 * (bank.max_rate - 1.0) * random.unit()),
            };
            let (input, delay) = (delays::hostile(random) as f32, delays::delay(random, ring, true));
            let (call, newest) = (Call { input, delay, quality, rate }, told.state().accepted);
            let (number, sample, host::Absent { unwritten, ahead, overwritten }) = told.process_told(&call);
            let absent = Absent { unwritten, ahead, overwritten };
            let beside = plain.process(&call);
            let right = match told.state().accepted == newest {
                true => Absent::default(),
                false => absent_of(bank, fade.call(quality), newest, ring, delay, rate.unwrap_or(bank.max_rate)),
            };
            let (t, p) = (told.state(), plain.state());
            let alike = (number, bits32(sample)) == (beside.0, bits32(beside.1))
                && (t.accepted, t.current, t.target, t.crossfade_position, t.direction)
                    == (p.accepted, p.current, p.target, p.crossfade_position, p.direction)
                && t.ring == p.ring;
            if !alike || absent != right {
                stop(NAME, newest, ring, delay, right, absent);
            }
            missing += (right != Absent::default()) as u64;
            compared += 1;
        }
    }
    let kind = if returning { "calls by the second rule" } else { "calls by the ported rule" };
    context.count(NAME, kind, compared, Some(missing));
}

pub fn run(context: &mut Context) {
    for kernel in some() {
        readers(context, kernel);
    }
    sinc(context);
    sinc_f32(context);
    let bank = banks::bank(banks::SMALL[context.round as usize % 3]);
    for (returning, length) in [false, true].into_iter().flat_map(|rule| [0, 1, 3, 40].map(|n| (rule, n))) {
        qualities(context, bank, returning, length);
    }
}
