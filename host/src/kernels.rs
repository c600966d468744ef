//! The kernels that are constants: no table, nothing to refuse when they are made.

use crate::{
    boundary::{self, Absent, Items, Named, Reader},
    doors::Door,
};

/// Four-point, third-order Lagrange interpolation in Farrow-polynomial form.
#[derive(Clone, Copy, Default)]
pub struct CubicFarrow;

/// Even-tap Lagrange fractional-delay filter, centered around the read point. Taps from 2 to 16; others are refused by 1 when it reads.
pub struct Lagrange<const TAPS: usize>;

impl<const TAPS: usize> Default for Lagrange<TAPS> {
    fn default() -> Self {
        Self
    }
}

/// Eight-point, seventh-degree Lagrange interpolation in fixed Farrow form.
#[derive(Clone, Copy, Default)]
pub struct Farrow8;

/// A kernel over its exports, with its taps, its name, and its number for the oversampled readers.
macro_rules! door {
    ($kernel:ty $([$($generic:tt)*])?: $exports:expr, $taps:expr, $called:literal, $number:literal, $points:expr) => {
        impl$(<$($generic)*>)? Door for $kernel {
            fn taps(&self) -> usize {
                $taps
            }
            fn called(&self) -> &'static str {
                $called
            }
            #[inline]
            fn process(&self, reader: &mut Reader, input: f64, delay: f64, sample: &mut f64) -> u8 {
                ($exports.process)(reader, input, delay, $taps as u64, sample)
            }
            fn process_told(&self, reader: &mut Reader, input: f64, delay: f64, to: &mut f64, absent: &mut Absent) -> u8 {
                ($exports.process_told)(reader, input, delay, $taps as u64, to, absent)
            }
            fn stretch(&self, reader: &mut Reader, items: &mut Items, out: &mut [f64]) -> u8 {
                ($exports.stretch)(reader, items, $taps as u64, out)
            }
            fn stretch_told(&self, reader: &mut Reader, items: &mut Items, out: &mut [f64], absent: &mut Absent) -> u8 {
                ($exports.stretch_told)(reader, items, $taps as u64, out, absent)
            }
            fn read(&self, source: &[f64], count: u64, position: f64, sample: &mut f64) -> u8 {
                ($exports.sample)(source, count, position, $taps as u64, sample)
            }
            fn named(&self) -> Named<'_> {
                Named { kernel: $number, points: $points, phases: 0, table: &[] }
            }
        }
    };
}

door!(CubicFarrow: boundary::CUBIC, 4, "cubic-farrow", 0, 0);
door!(Lagrange<TAPS> [const TAPS: usize]: boundary::LAGRANGE, TAPS, "lagrange", 1, TAPS);
door!(Farrow8: boundary::FARROW8, 8, "farrow-8", 2, 0);
