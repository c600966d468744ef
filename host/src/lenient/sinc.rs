//! The kernels that read a table, as the original has them, and beside its constructors those that take a mode.

use super::or_panic;
use crate::{
    boundary::{Absent, Items, ItemsF32, Named, Reader},
    doors::{Door, DoorF32, ReaderF32},
    strict, Mode,
};

/// Dense phase-table, Kaiser-windowed sinc interpolator.
pub struct WindowedSinc(pub(crate) strict::WindowedSinc);

impl WindowedSinc {
    #[track_caller]
    pub fn new(taps: usize, phases: usize, cutoff: f64, beta: f64) -> Self {
        Self(or_panic(strict::WindowedSinc::new(taps, phases, cutoff, beta)))
    }

    #[track_caller]
    pub fn for_max_rate(taps: usize, phases: usize, max_rate: f64, passband: f64, beta: f64) -> Self {
        Self(or_panic(strict::WindowedSinc::for_max_rate(taps, phases, max_rate, passband, beta)))
    }

    /// With its window by the sum called I0 in a mode, which the original does not have.
    #[track_caller]
    pub fn new_in(taps: usize, phases: usize, cutoff: f64, beta: f64, mode: Mode) -> Self {
        Self(or_panic(strict::WindowedSinc::new_in(taps, phases, cutoff, beta, mode)))
    }

    #[rustfmt::skip]
    #[track_caller]
    pub fn for_max_rate_in(taps: usize, phases: usize, max_rate: f64, passband: f64, beta: f64, mode: Mode) -> Self {
        Self(or_panic(strict::WindowedSinc::for_max_rate_in(taps, phases, max_rate, passband, beta, mode)))
    }

    pub fn taps(&self) -> usize {
        self.0.taps()
    }
    pub fn phases(&self) -> usize {
        self.0.phases()
    }
    pub fn cutoff(&self) -> f64 {
        self.0.cutoff()
    }
    pub fn mode(&self) -> Mode {
        self.0.mode()
    }
}

impl Door for WindowedSinc {
    fn taps(&self) -> usize {
        self.0.taps()
    }
    fn called(&self) -> &'static str {
        self.0.called()
    }
    #[inline]
    fn process(&self, reader: &mut Reader, input: f64, delay: f64, sample: &mut f64) -> u8 {
        self.0.process(reader, input, delay, sample)
    }
    #[rustfmt::skip]
    fn process_told(&self, reader: &mut Reader, input: f64, delay: f64, sample: &mut f64, absent: &mut Absent) -> u8 {
        self.0.process_told(reader, input, delay, sample, absent)
    }
    fn stretch(&self, reader: &mut Reader, items: &mut Items, out: &mut [f64]) -> u8 {
        self.0.stretch(reader, items, out)
    }
    fn stretch_told(&self, reader: &mut Reader, items: &mut Items, out: &mut [f64], absent: &mut Absent) -> u8 {
        self.0.stretch_told(reader, items, out, absent)
    }
    fn read(&self, source: &[f64], count: u64, position: f64, sample: &mut f64) -> u8 {
        self.0.read(source, count, position, sample)
    }
    fn named(&self) -> Named<'_> {
        self.0.named()
    }
}

/// The table rounded once to f32.
pub struct WindowedSincF32(pub(crate) strict::WindowedSincF32);

impl WindowedSincF32 {
    #[track_caller]
    pub fn new(taps: usize, phases: usize, cutoff: f64, beta: f64) -> Self {
        Self(or_panic(strict::WindowedSincF32::new(taps, phases, cutoff, beta)))
    }

    #[track_caller]
    pub fn for_max_rate(taps: usize, phases: usize, max_rate: f64, passband: f64, beta: f64) -> Self {
        Self(or_panic(strict::WindowedSincF32::for_max_rate(taps, phases, max_rate, passband, beta)))
    }

    /// With its window by the sum called I0 in a mode, which the original does not have.
    #[track_caller]
    pub fn new_in(taps: usize, phases: usize, cutoff: f64, beta: f64, mode: Mode) -> Self {
        Self(or_panic(strict::WindowedSincF32::new_in(taps, phases, cutoff, beta, mode)))
    }

    #[rustfmt::skip]
    #[track_caller]
    pub fn for_max_rate_in(taps: usize, phases: usize, max_rate: f64, passband: f64, beta: f64, mode: Mode) -> Self {
        Self(or_panic(strict::WindowedSincF32::for_max_rate_in(taps, phases, max_rate, passband, beta, mode)))
    }

    pub fn mode(&self) -> Mode {
        self.0.mode()
    }
}

impl DoorF32 for WindowedSincF32 {
    fn taps(&self) -> usize {
        self.0.taps()
    }
    #[inline]
    fn process(&self, reader: &mut ReaderF32, input: f32, delay: f64, sample: &mut f32) -> u8 {
        self.0.process(reader, input, delay, sample)
    }
    #[rustfmt::skip]
    fn process_told(&self, reader: &mut ReaderF32, input: f32, delay: f64, sample: &mut f32, absent: &mut Absent) -> u8 {
        self.0.process_told(reader, input, delay, sample, absent)
    }
    fn stretch(&self, reader: &mut ReaderF32, items: &mut ItemsF32, out: &mut [f32]) -> u8 {
        self.0.stretch(reader, items, out)
    }
    fn stretch_told(&self, reader: &mut ReaderF32, items: &mut ItemsF32, out: &mut [f32], absent: &mut Absent) -> u8 {
        self.0.stretch_told(reader, items, out, absent)
    }
    fn read(&self, source: &[f32], count: u64, position: f64, sample: &mut f32) -> u8 {
        self.0.read(source, count, position, sample)
    }
}
