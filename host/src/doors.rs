//! What a kernel of the port offers: one call over a reader, one over a slice. Closed to other crates; both ways, strict and lenient, go through here.

use crate::{
    boundary::{Absent, Items, ItemsF32, Named, Reader},
    sources::{gather, SampleSource, SampleSourceF32},
    Refusal,
};

/// A kernel over f64: `process_told` and `stretch_told` also count its absent taps. No method has a name that the original's `Kernel` has, so that `kernel.name()` is one thing where `K: Kernel`.
pub trait Door {
    fn taps(&self) -> usize;
    fn called(&self) -> &'static str;
    fn process(&self, reader: &mut Reader, input: f64, delay: f64, sample: &mut f64) -> u8;
    fn process_told(&self, reader: &mut Reader, input: f64, delay: f64, sample: &mut f64, absent: &mut Absent) -> u8;
    fn stretch(&self, reader: &mut Reader, items: &mut Items, out: &mut [f64]) -> u8;
    fn stretch_told(&self, reader: &mut Reader, items: &mut Items, out: &mut [f64], absent: &mut Absent) -> u8;
    fn read(&self, source: &[f64], count: u64, position: f64, sample: &mut f64) -> u8;
    /// The kernel by its number, as the oversampled readers take it.
    fn named(&self) -> Named<'_>;
}

/// A kernel over f32.
pub trait DoorF32 {
    fn taps(&self) -> usize;
    fn process(&self, reader: &mut ReaderF32, input: f32, delay: f64, sample: &mut f32) -> u8;
    #[rustfmt::skip]
    fn process_told(&self, reader: &mut ReaderF32, input: f32, delay: f64, sample: &mut f32, absent: &mut Absent) -> u8;
    fn stretch(&self, reader: &mut ReaderF32, items: &mut ItemsF32, out: &mut [f32]) -> u8;
    fn stretch_told(&self, reader: &mut ReaderF32, items: &mut ItemsF32, out: &mut [f32], absent: &mut Absent) -> u8;
    fn read(&self, source: &[f32], count: u64, position: f64, sample: &mut f32) -> u8;
}

/// A reader's numbers beside its ring, over f32.
pub struct ReaderF32 {
    pub maximum: usize,
    pub margin: usize,
    pub accepted: u64,
    pub ring: Vec<f32>,
}

/// What a kernel reads from a source at a position.
pub fn read<K: Door, S: SampleSource>(kernel: &K, source: &S, position: f64) -> Result<f64, Refusal> {
    let mut sample = 0.0;
    let number = match source.slice() {
        Some(slice) => kernel.read(slice, slice.len() as u64, position, &mut sample),
        None => {
            let g = gather(kernel.taps(), position, |i| source.at(i), f64::to_bits)?;
            kernel.read(&g.ring, g.count, position, &mut sample)
        }
    };
    Refusal::of(number).map(|()| sample)
}

/// The same for f32.
pub fn read_f32<K: DoorF32, S: SampleSourceF32>(kernel: &K, source: &S, position: f64) -> Result<f32, Refusal> {
    let mut sample = 0.0;
    let g = gather(kernel.taps(), position, |i| source.at_f32(i), |x: f32| x.to_bits().into())?;
    let number = kernel.read(&g.ring, g.count, position, &mut sample);
    Refusal::of(number).map(|()| sample)
}

/// The length that a ring of these settings needs; 0 where that is above 2^24, since the port refuses such settings by 1 whatever is lent.
pub fn ring_length(maximum: usize, margin: usize) -> usize {
    let requested = margin.checked_mul(2).and_then(|m| m.checked_add(maximum)).and_then(|n| n.checked_add(8));
    requested.filter(|&n| n <= 1 << 24).map_or(0, usize::next_power_of_two)
}
