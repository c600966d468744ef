//! The original's names, signatures and answers: 0.0 and no advance where the original gives that, and a panic that says why where it panics or the
//! arguments leave the range in which the port is proved. The crate's root is this module.

mod delays;
pub mod modulation;
mod oversampled;
mod quality;
mod sinc;

pub use crate::{
    boundary::Absent,
    kernels::{CubicFarrow, Farrow8, Lagrange},
    quality_mode::QualityMode,
    sources::{SampleSource, SampleSourceF32, SliceSource},
};
pub use delays::{VariableDelay, VariableDelayF32};
pub use oversampled::{CascadedOversampledVariableDelay4x, OversampledVariableDelay};
pub use quality::{QualityVariableDelayF32, SincBankF32};
pub use sinc::{WindowedSinc, WindowedSincF32};

use crate::{
    doors::{read, read_f32, Door, DoorF32},
    Refusal,
};

/// A random-access interpolation kernel. `position` is in absolute samples. Closed: the kernels are the port's.
pub trait Kernel: Door {
    fn sample<S: SampleSource>(&self, source: &S, position: f64) -> f64;
    fn name(&self) -> &'static str;
}

impl<K: Door> Kernel for K {
    #[track_caller]
    fn sample<S: SampleSource>(&self, source: &S, position: f64) -> f64 {
        or_panic(read(self, source, position))
    }
    fn name(&self) -> &'static str {
        self.called()
    }
}

/// The same for f32; positions stay f64.
pub trait KernelF32: DoorF32 {
    fn sample_f32<S: SampleSourceF32>(&self, source: &S, position: f64) -> f32;
}

impl<K: DoorF32> KernelF32 for K {
    #[track_caller]
    fn sample_f32<S: SampleSourceF32>(&self, source: &S, position: f64) -> f32 {
        or_panic(read_f32(self, source, position))
    }
}

/// What is refused here the original answers by a panic, or outside the range in which the port is proved.
#[track_caller]
fn or_panic<T>(answer: Result<T, Refusal>) -> T {
    match answer {
        Ok(value) => value,
        Err(refusal) => panic!("{refusal}"),
    }
}

/// The same after a call of a reader, whose input and delay the original looks at first: where one of them is bad it answers 0.0.
#[inline]
#[track_caller]
fn or_silence<T: Default>(answer: Result<T, Refusal>, finite_input: bool, delay_samples: f64) -> T {
    match answer {
        Ok(value) => value,
        Err(_) if !finite_input || !delay_samples.is_finite() || delay_samples < 0.0 => T::default(),
        Err(refusal) => panic!("{refusal}"),
    }
}
