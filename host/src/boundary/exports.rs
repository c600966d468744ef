//! What a kernel without a table exports: one type for all of them, and the macro that makes a kernel's entry.

use super::{readers::Reader, stretches::Items, told::Absent};

/// A kernel's exports: each gives the refusal's number, 0 for none. The number behind the delay, the position or the
/// items is the taps that the call asks for; a kernel with a number of its own does not look at it.
pub struct Exports {
    /// As the exports' names have it: `fugnadri_NAME_process` and so on.
    pub name: &'static str,
    /// How many taps a call reads that asks for so many.
    pub reads: fn(u64) -> u64,
    pub process: fn(&mut Reader, f64, f64, u64, &mut f64) -> u8,
    pub process_bits: fn(&mut Reader, f64, f64, u64, &mut u64) -> u8,
    pub process_told: fn(&mut Reader, f64, f64, u64, &mut f64, &mut Absent) -> u8,
    pub sample: fn(&[f64], u64, f64, u64, &mut f64) -> u8,
    pub sample_bits: fn(&[f64], u64, f64, u64, &mut u64) -> u8,
    pub stretch: fn(&mut Reader, &mut Items, u64, &mut [f64]) -> u8,
    pub stretch_told: fn(&mut Reader, &mut Items, u64, &mut [f64], &mut Absent) -> u8,
}

/// The first of two: what a call is handed where its kernel is marked as one that asks for taps.
macro_rules! first {
    ($first:expr, $mark:tt) => {
        $first
    };
}

/// An entry for each kernel: its constant, its name, the taps that it reads, a mark if a call asks for them, and its
/// exports in the order of the fields.
#[rustfmt::skip]
macro_rules! kernels {
    ($($kernel:ident $name:literal, $reads:expr $(, $mark:tt)? => $process:ident $bits:ident $told:ident
        $sample:ident $sample_bits:ident $stretch:ident $stretch_told:ident;)*) => {
        $(pub const $kernel: Exports = {
            #[inline]
            fn process(r: &mut Reader, input: f64, delay: f64, _taps: u64, to: &mut f64) -> u8 {
                let (ring, length, count) = (r.ring.as_mut_ptr(), r.ring.len(), &mut r.accepted);
                unsafe {
                    $process(r.maximum, r.margin, count, ring, length, input, delay, $(first!(_taps, $mark),)? to)
                }
            }
            #[inline]
            fn process_bits(r: &mut Reader, input: f64, delay: f64, _taps: u64, to: &mut u64) -> u8 {
                let (ring, length, count) = (r.ring.as_mut_ptr(), r.ring.len(), &mut r.accepted);
                unsafe {
                    $bits(r.maximum, r.margin, count, ring, length, input, delay, $(first!(_taps, $mark),)? to)
                }
            }
            #[inline]
            fn process_told(r: &mut Reader, input: f64, delay: f64, _taps: u64, to: &mut f64, a: &mut Absent) -> u8 {
                let (ring, length, count) = (r.ring.as_mut_ptr(), r.ring.len(), &mut r.accepted);
                let (u, h, o) = (&mut a.unwritten, &mut a.ahead, &mut a.overwritten);
                unsafe {
                    $told(r.maximum, r.margin, count, ring, length, input, delay, $(first!(_taps, $mark),)? to, u, h, o)
                }
            }
            #[inline]
            fn sample(source: &[f64], count: u64, position: f64, _taps: u64, to: &mut f64) -> u8 {
                unsafe { $sample(source.as_ptr(), source.len(), count, position, $(first!(_taps, $mark),)? to) }
            }
            #[inline]
            fn sample_bits(source: &[f64], count: u64, position: f64, _taps: u64, to: &mut u64) -> u8 {
                unsafe { $sample_bits(source.as_ptr(), source.len(), count, position, $(first!(_taps, $mark),)? to) }
            }
            #[inline]
            fn stretch(r: &mut Reader, items: &mut Items, _taps: u64, out: &mut [f64]) -> u8 {
                let Items { inputs: x, delays: y, done } = items;
                unsafe {
                    $stretch(
                        r.maximum, r.margin, &mut r.accepted, r.ring.as_mut_ptr(), r.ring.len(), x.as_ptr(), x.len(),
                        y.as_ptr(), y.len(), $(first!(_taps, $mark),)? out.as_mut_ptr(), out.len(), done,
                    )
                }
            }
            #[inline]
            fn stretch_told(r: &mut Reader, items: &mut Items, _taps: u64, out: &mut [f64], a: &mut Absent) -> u8 {
                let Items { inputs: x, delays: y, done } = items;
                let (u, h, o) = (&mut a.unwritten, &mut a.ahead, &mut a.overwritten);
                unsafe {
                    $stretch_told(
                        r.maximum, r.margin, &mut r.accepted, r.ring.as_mut_ptr(), r.ring.len(), x.as_ptr(), x.len(),
                        y.as_ptr(), y.len(), $(first!(_taps, $mark),)? out.as_mut_ptr(), out.len(), done, u, h, o,
                    )
                }
            }
            let reads: fn(u64) -> u64 = $reads;
            let name = $name;
            Exports { name, reads, process, process_bits, process_told, sample, sample_bits, stretch, stretch_told }
        };)*
        pub const KERNELS: &[Exports] = &[$($kernel),*];
    };
}
