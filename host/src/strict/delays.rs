//! The delay readers of one kernel: each owns its ring.

use crate::{
    boundary::{Absent, Items, ItemsF32, Reader, Width},
    doors::{ring_length, Door, DoorF32, ReaderF32},
    Refusal, Stopped,
};

/// Circular-buffer variable-delay reader. Allocates only when it is made.
pub struct VariableDelay<K> {
    pub(crate) reader: Reader,
    kernel: K,
}

impl<K: Door> VariableDelay<K> {
    /// Refused by 1 where `max_delay_samples + 2 * kernel_margin + 8` is above 2^24.
    pub fn new(max_delay_samples: usize, kernel_margin: usize, kernel: K) -> Result<Self, Refusal> {
        let ring = vec![0.0; ring_length(max_delay_samples, kernel_margin)];
        let mut reader = Reader { maximum: max_delay_samples, margin: kernel_margin, accepted: 0, ring };
        Refusal::of(reader.open())?;
        Ok(Self { reader, kernel })
    }

    /// Writes one input and reads `delay_samples` behind it. Refused by 4, 5, 6 or 8; by 1 where the kernel is a `Lagrange` of taps out of range.
    #[inline]
    pub fn process_sample(&mut self, input: f64, delay_samples: f64) -> Result<f64, Refusal> {
        let mut sample = 0.0;
        let number = self.kernel.process(&mut self.reader, input, delay_samples, &mut sample);
        Refusal::of(number).map(|()| sample)
    }

    /// The same with the number of its absent taps, by kind: three zeros if it is refused.
    #[inline]
    pub fn process_sample_told(&mut self, input: f64, delay_samples: f64) -> (Result<f64, Refusal>, Absent) {
        let (mut sample, mut absent) = (0.0, Absent::default());
        let number = self.kernel.process_told(&mut self.reader, input, delay_samples, &mut sample, &mut absent);
        (Refusal::of(number).map(|()| sample), absent)
    }

    /// Writes the inputs in order and reads each one's delay behind it: `process_sample` item by item, in one call. It
    /// stops at the first item that is refused. Refused by 2 before the first item where the three lengths differ.
    pub fn process_stretch(&mut self, inputs: &[f64], delays: &[f64], out: &mut [f64]) -> Result<(), Stopped> {
        let mut items = Items { inputs, delays, done: 0 };
        let number = self.kernel.stretch(&mut self.reader, &mut items, out);
        Stopped::of(items.done, number)
    }

    /// The same with the absent taps of all items done, added up by kind.
    pub fn process_stretch_told(
        &mut self,
        inputs: &[f64],
        delays: &[f64],
        out: &mut [f64],
    ) -> (Result<(), Stopped>, Absent) {
        let (mut items, mut absent) = (Items { inputs, delays, done: 0 }, Absent::default());
        let number = self.kernel.stretch_told(&mut self.reader, &mut items, out, &mut absent);
        (Stopped::of(items.done, number), absent)
    }

    /// Zeroes the ring and the count. Never refused: the settings were accepted, and the state is the port's own.
    pub fn reset(&mut self) {
        let number = self.reader.reset();
        debug_assert_eq!(number, 0);
    }
}

/// The same over f32; the position read stays f64.
pub struct VariableDelayF32<K> {
    pub(crate) reader: ReaderF32,
    kernel: K,
}

impl<K: DoorF32> VariableDelayF32<K> {
    /// Refused by 1 where `max_delay_samples + 2 * kernel_margin + 8` is above 2^24.
    pub fn new(max_delay_samples: usize, kernel_margin: usize, kernel: K) -> Result<Self, Refusal> {
        let ring = vec![0.0; ring_length(max_delay_samples, kernel_margin)];
        let mut reader = ReaderF32 { maximum: max_delay_samples, margin: kernel_margin, accepted: 0, ring };
        Refusal::of(f32::open(reader.maximum, reader.margin, &mut reader.accepted, &mut reader.ring))?;
        Ok(Self { reader, kernel })
    }

    /// Writes one input and reads `delay_samples` behind it. Refused by 4, 5, 6 or 8.
    #[inline]
    pub fn process_sample(&mut self, input: f32, delay_samples: f64) -> Result<f32, Refusal> {
        let mut sample = 0.0;
        let number = self.kernel.process(&mut self.reader, input, delay_samples, &mut sample);
        Refusal::of(number).map(|()| sample)
    }

    /// The same with the number of its absent taps, by kind: three zeros if it is refused.
    #[inline]
    pub fn process_sample_told(&mut self, input: f32, delay_samples: f64) -> (Result<f32, Refusal>, Absent) {
        let (mut sample, mut absent) = (0.0, Absent::default());
        let number = self.kernel.process_told(&mut self.reader, input, delay_samples, &mut sample, &mut absent);
        (Refusal::of(number).map(|()| sample), absent)
    }

    /// `process_sample` item by item, in one call, up to the first item that is refused. Refused by 2 before the first
    /// item where the three lengths differ.
    pub fn process_stretch(&mut self, inputs: &[f32], delays: &[f64], out: &mut [f32]) -> Result<(), Stopped> {
        let mut items = ItemsF32 { inputs, delays, done: 0 };
        let number = self.kernel.stretch(&mut self.reader, &mut items, out);
        Stopped::of(items.done, number)
    }

    /// The same with the absent taps of all items done, added up by kind.
    pub fn process_stretch_told(
        &mut self,
        inputs: &[f32],
        delays: &[f64],
        out: &mut [f32],
    ) -> (Result<(), Stopped>, Absent) {
        let (mut items, mut absent) = (ItemsF32 { inputs, delays, done: 0 }, Absent::default());
        let number = self.kernel.stretch_told(&mut self.reader, &mut items, out, &mut absent);
        (Stopped::of(items.done, number), absent)
    }

    /// Zeroes the ring and the count. Never refused, as above.
    pub fn reset(&mut self) {
        let reader = &mut self.reader;
        let number = f32::reset(reader.maximum, reader.margin, &mut reader.accepted, &mut reader.ring);
        debug_assert_eq!(number, 0);
    }
}
