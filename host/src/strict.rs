//! The original's names, with a `Result` wherever a call can be refused. After a refusal everything is as it was.

mod bank;
mod delays;
mod fading;
pub mod modulation;
mod oversampled;
mod quality;
mod sinc;
pub(crate) mod table;

pub use crate::{
    boundary::Absent,
    kernels::{CubicFarrow, Farrow8, Lagrange},
    quality_mode::QualityMode,
    sources::{SampleSource, SampleSourceF32, SliceSource},
    Refusal, Stopped,
};
pub use bank::SincBankF32;
pub use delays::{VariableDelay, VariableDelayF32};
pub(crate) use fading::Fading;
pub use oversampled::{CascadedOversampledVariableDelay4x, OversampledVariableDelay};
pub use quality::QualityVariableDelayF32;
pub use sinc::{WindowedSinc, WindowedSincF32};

use crate::doors::{read, read_f32, Door, DoorF32};

/// A random-access interpolation kernel. `position` is in absolute samples, from -2^36 to 2^36. Closed: the kernels are the port's.
pub trait Kernel: Door {
    fn sample<S: SampleSource>(&self, source: &S, position: f64) -> Result<f64, Refusal>;
    fn name(&self) -> &'static str;
}

impl<K: Door> Kernel for K {
    fn sample<S: SampleSource>(&self, source: &S, position: f64) -> Result<f64, Refusal> {
        read(self, source, position)
    }
    fn name(&self) -> &'static str {
        self.called()
    }
}

/// The same for f32; positions stay f64.
pub trait KernelF32: DoorF32 {
    fn sample_f32<S: SampleSourceF32>(&self, source: &S, position: f64) -> Result<f32, Refusal>;
}

impl<K: DoorF32> KernelF32 for K {
    fn sample_f32<S: SampleSourceF32>(&self, source: &S, position: f64) -> Result<f32, Refusal> {
        read_f32(self, source, position)
    }
}
