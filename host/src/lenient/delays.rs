//! The delay readers of one kernel, as the original has them.

use super::{or_panic, or_silence};
use crate::{
    boundary::Absent,
    doors::{Door, DoorF32},
    strict, Refusal, Stopped,
};

/// Circular-buffer variable-delay reader. Allocates only when it is made.
pub struct VariableDelay<K>(pub(crate) strict::VariableDelay<K>);

impl<K: Door> VariableDelay<K> {
    #[track_caller]
    pub fn new(max_delay_samples: usize, kernel_margin: usize, kernel: K) -> Self {
        Self(or_panic(strict::VariableDelay::new(max_delay_samples, kernel_margin, kernel)))
    }

    /// Writes one input and reads `delay_samples` behind it; 0.0 and no advance where either is not finite or the delay is below zero.
    #[inline]
    #[track_caller]
    pub fn process_sample(&mut self, input: f64, delay_samples: f64) -> f64 {
        or_silence(self.0.process_sample(input, delay_samples), input.is_finite(), delay_samples)
    }

    /// The same with the number of its absent taps, by kind, which the original does not count: three zeros where it does not advance.
    #[inline]
    #[track_caller]
    pub fn process_sample_told(&mut self, input: f64, delay_samples: f64) -> (f64, Absent) {
        let (answer, absent) = self.0.process_sample_told(input, delay_samples);
        (or_silence(answer, input.is_finite(), delay_samples), absent)
    }

    /// `process_sample` item by item, in one call, which the original does not have. An item whose input or delay is bad
    /// gives 0.0 and does not advance, as there; it panics where the three lengths differ.
    #[track_caller]
    pub fn process_stretch(&mut self, inputs: &[f64], delays: &[f64], out: &mut [f64]) {
        goes_on(out, |at, out| self.0.process_stretch(&inputs[at..], &delays[at..], out));
    }

    /// The same with the absent taps of all items that advance, added up by kind.
    #[track_caller]
    pub fn process_stretch_told(&mut self, inputs: &[f64], delays: &[f64], out: &mut [f64]) -> Absent {
        goes_on_told(out, |at, out| self.0.process_stretch_told(&inputs[at..], &delays[at..], out))
    }

    pub fn reset(&mut self) {
        self.0.reset();
    }
}

/// The same over f32; the position read stays f64.
pub struct VariableDelayF32<K>(pub(crate) strict::VariableDelayF32<K>);

impl<K: DoorF32> VariableDelayF32<K> {
    #[track_caller]
    pub fn new(max_delay_samples: usize, kernel_margin: usize, kernel: K) -> Self {
        Self(or_panic(strict::VariableDelayF32::new(max_delay_samples, kernel_margin, kernel)))
    }

    #[inline]
    #[track_caller]
    pub fn process_sample(&mut self, input: f32, delay_samples: f64) -> f32 {
        or_silence(self.0.process_sample(input, delay_samples), input.is_finite(), delay_samples)
    }

    /// The same with the number of its absent taps, by kind, which the original does not count: three zeros where it does not advance.
    #[inline]
    #[track_caller]
    pub fn process_sample_told(&mut self, input: f32, delay_samples: f64) -> (f32, Absent) {
        let (answer, absent) = self.0.process_sample_told(input, delay_samples);
        (or_silence(answer, input.is_finite(), delay_samples), absent)
    }

    /// `process_sample` item by item, in one call, as above.
    #[track_caller]
    pub fn process_stretch(&mut self, inputs: &[f32], delays: &[f64], out: &mut [f32]) {
        goes_on(out, |at, out| self.0.process_stretch(&inputs[at..], &delays[at..], out));
    }

    /// The same with the absent taps of all items that advance, added up by kind.
    #[track_caller]
    pub fn process_stretch_told(&mut self, inputs: &[f32], delays: &[f64], out: &mut [f32]) -> Absent {
        goes_on_told(out, |at, out| self.0.process_stretch_told(&inputs[at..], &delays[at..], out))
    }

    pub fn reset(&mut self) {
        self.0.reset();
    }
}

/// A whole stretch as the original would go on: `part` does the items from a place on, up to the first refused one. That
/// one gives 0.0 where its input or its delay is bad, and the next part begins behind it; else the original has no answer.
#[track_caller]
pub(crate) fn goes_on<T: Default>(out: &mut [T], mut part: impl FnMut(usize, &mut [T]) -> Result<(), Stopped>) {
    let mut at = 0;
    while let Err(stopped) = part(at, &mut out[at..]) {
        match stopped.refusal {
            Refusal::Input | Refusal::Delay => out[at + stopped.done] = T::default(),
            refusal => panic!("{refusal}"),
        }
        at += stopped.done + 1;
    }
}

/// The same, adding up what the parts tell.
#[track_caller]
pub(crate) fn goes_on_told<T: Default>(
    out: &mut [T],
    mut part: impl FnMut(usize, &mut [T]) -> (Result<(), Stopped>, Absent),
) -> Absent {
    let mut all = Absent::default();
    goes_on(out, |at, out| {
        let (answer, absent) = part(at, out);
        all += absent;
        answer
    });
    all
}
