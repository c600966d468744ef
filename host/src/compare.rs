//! What the comparison with the original looks at and sets inside the types: counts and rings, tables, sets, words. `oracle/run` alone builds this crate with it,
//! by `--cfg compare`; a user never sees it.

pub use crate::boundary::QualityReader;
use crate::{lenient, strict, strict::table::Table, Mode};

/// A reader's count and its ring, in either width.
macro_rules! readers {
    ($($way:ident $reader:ident $float:ty, $($inside:tt).+;)*) => {
        $(impl<K> $way::$reader<K> {
            pub fn parts(&mut self) -> (&mut u64, &mut Vec<$float>) {
                let reader = &mut self.$($inside).+;
                (&mut reader.accepted, &mut reader.ring)
            }
        })*
    };
}

readers! {
    strict VariableDelay f64, reader;
    lenient VariableDelay f64, 0.reader;
    strict VariableDelayF32 f32, reader;
    lenient VariableDelayF32 f32, 0.reader;
}

impl strict::WindowedSinc {
    /// Over a table of anything.
    pub fn of(taps: usize, phases: usize, values: Vec<f64>) -> Self {
        Self { table: Table { taps, phases, mode: Mode::Ported, values }, cutoff: 1.0 }
    }
    pub fn values(&self) -> &[f64] {
        &self.table.values
    }
}

impl strict::WindowedSincF32 {
    pub fn of(taps: usize, phases: usize, values: Vec<f32>) -> Self {
        Self { table: Table { taps, phases, mode: Mode::Ported, values } }
    }
    pub fn values(&self) -> &[f32] {
        &self.table.values
    }
}

impl lenient::WindowedSinc {
    pub fn of(taps: usize, phases: usize, values: Vec<f64>) -> Self {
        Self(strict::WindowedSinc::of(taps, phases, values))
    }
    pub fn values(&self) -> &[f64] {
        self.0.values()
    }
}

impl lenient::WindowedSincF32 {
    pub fn of(taps: usize, phases: usize, values: Vec<f32>) -> Self {
        Self(strict::WindowedSincF32::of(taps, phases, values))
    }
    pub fn values(&self) -> &[f32] {
        self.0.values()
    }
}

impl strict::SincBankF32 {
    pub fn sets(&self) -> &[f32] {
        &self.sets
    }
}

impl lenient::SincBankF32 {
    pub fn sets(&self) -> &[f32] {
        &self.0.sets
    }
}

impl strict::QualityVariableDelayF32 {
    pub fn state(&mut self) -> &mut QualityReader {
        &mut self.reader.0
    }
}

impl lenient::QualityVariableDelayF32 {
    pub fn state(&mut self) -> &mut QualityReader {
        &mut self.reader.0
    }
}

impl strict::modulation::ModulationEngine {
    pub fn words(&mut self) -> &mut [u64; 15] {
        &mut self.words
    }
}

impl lenient::modulation::ModulationEngine {
    pub fn words(&mut self) -> &mut [u64; 15] {
        &mut self.0.words
    }
}
