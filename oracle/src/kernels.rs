//! The double-precision kernels of the original, each beside the types of host/ and the port's exports of it.

use crate::hosts::{caught, refused, Hosted, Own};
use crate::subjects::told::Noting;
use boundary::Exports;
use host::{lenient, strict};
use wow_dsp::{CubicFarrow, Farrow8, Kernel, Lagrange, SliceSource, VariableDelay};

pub struct Beside {
    /// The port's exports, and the taps that a call of them asks for: 0 where the kernel has a number of its own.
    pub port: &'static Exports,
    pub taps: u64,
    /// The original's `VariableDelay::new`, by the maximum and the margin.
    pub open: fn(usize, usize) -> Box<dyn Original>,
    /// The strict one of host/, and the lenient.
    pub host: fn(usize, usize) -> [Box<dyn Hosted<f64>>; 2],
    /// The original's kernel over a plain slice.
    pub at: fn(&[f64], f64) -> f64,
    /// Those of host/: the strict one over the slice, the lenient one over a source of a user's own.
    pub host_at: fn(&[f64], f64) -> [(u8, f64); 2],
    /// The original's kernel over a source that notes which index is asked for.
    pub ask: fn(&Noting, f64),
}

impl Beside {
    const fn of<K, H>(port: &'static Exports, taps: u64) -> Self
    where
        K: Kernel + Default + 'static,
        H: strict::Kernel + lenient::Kernel + Default + 'static,
    {
        Beside { port, taps, open: open::<K>, host: host::<H>, at: at::<K>, host_at: host_at::<H>, ask: ask::<K> }
    }

    pub fn name(&self) -> String {
        match self.taps {
            0 => self.port.name.into(),
            taps => format!("{} {taps}", self.port.name),
        }
    }
}

/// A reader of the original over any kernel.
pub trait Original {
    fn process(&mut self, input: f64, delay: f64) -> f64;
    fn reset(&mut self);
    fn ring(&mut self) -> &mut Vec<f64>;
    /// 000's write_index: the samples accepted.
    fn count(&mut self) -> &mut i64;
}

impl<K: Kernel> Original for VariableDelay<K> {
    fn process(&mut self, input: f64, delay: f64) -> f64 {
        self.process_sample(input, delay)
    }
    fn reset(&mut self) {
        VariableDelay::reset(self)
    }
    fn ring(&mut self) -> &mut Vec<f64> {
        &mut self.buffer
    }
    fn count(&mut self) -> &mut i64 {
        &mut self.write_index
    }
}

fn open<K: Kernel + Default + 'static>(maximum: usize, margin: usize) -> Box<dyn Original> {
    Box::new(VariableDelay::new(maximum, margin, K::default()))
}

fn at<K: Kernel + Default>(source: &[f64], position: f64) -> f64 {
    K::default().sample(&SliceSource(source), position)
}

fn host<K: strict::Kernel + lenient::Kernel + Default + 'static>(maximum: usize, margin: usize) -> [Box<dyn Hosted<f64>>; 2] {
    let strict = strict::VariableDelay::new(maximum, margin, K::default()).expect("settings in range");
    [Box::new(strict), Box::new(lenient::VariableDelay::new(maximum, margin, K::default()))]
}

fn host_at<K: strict::Kernel + lenient::Kernel + Default>(source: &[f64], position: f64) -> [(u8, f64); 2] {
    let kernel = K::default();
    let strict = strict::Kernel::sample(&kernel, &host::SliceSource(source), position);
    [refused(strict), caught(|| lenient::Kernel::sample(&kernel, &Own(source), position))]
}

fn ask<K: Kernel + Default>(source: &Noting, position: f64) {
    K::default().sample(source, position);
}

macro_rules! lagrange {
    ($($taps:literal)*) => {
        [$(Beside::of::<Lagrange<$taps>, host::Lagrange<$taps>>(&boundary::LAGRANGE, $taps)),*]
    };
}

static LAGRANGE: [Beside; 8] = lagrange![2 4 6 8 10 12 14 16];

/// The kernels with a number of taps of their own.
static FIXED: [Beside; 2] = [
    Beside::of::<CubicFarrow, host::CubicFarrow>(&boundary::CUBIC, 0),
    Beside::of::<Farrow8, host::Farrow8>(&boundary::FARROW8, 0),
];

pub fn every() -> impl Iterator<Item = &'static Beside> {
    FIXED.iter().chain(&LAGRANGE)
}

/// The same with Lagrange's least, middle and most taps alone.
pub fn some() -> impl Iterator<Item = &'static Beside> {
    every().filter(|kernel| [0, 2, 8, 16].contains(&kernel.taps))
}
