//! The original's windowed sinc in both widths, each beside the types of host/ and the port's exports of it.

use crate::hosts::{caught, panicked, refused, Hosted, Own};
use crate::random::Random;
use crate::shape::{bits32, bits64};
use boundary::Width;
use host::{lenient, strict};
use wow_dsp::{
    SampleSource, SampleSourceF32, VariableDelay, VariableDelayF32, WindowedSinc, WindowedSincF32,
};

/// A width of samples: the original's table, reading and reader over it.
pub trait Sinc: Width {
    type Reader: OriginalSinc<Self>;
    const NAME: &'static str;
    fn of(x: f64) -> Self;
    fn pattern(self) -> u64;
    fn finite(self) -> bool;
    fn table(taps: usize, phases: usize, cutoff: f64, beta: f64) -> Vec<Self>;
    fn table_for_max_rate(taps: usize, phases: usize, max_rate: f64, passband: f64, beta: f64) -> Vec<Self>;
    /// The original's kernel over a plain slice, with a table that may hold anything.
    fn at(table: &[Self], taps: usize, phases: usize, source: &[Self], position: f64) -> Self;
    fn reader(maximum: usize, margin: usize, table: &[Self], taps: usize, phases: usize) -> Self::Reader;
    /// By host/, one of its two ways: a table, or the number by which it is refused.
    fn host_table(way: Way, taps: usize, phases: usize, cutoff: f64, beta: f64) -> Result<Vec<Self>, u8>;
    fn host_table_for_max_rate(way: Way, taps: usize, phases: usize, max_rate: f64, passband: f64, beta: f64) -> Result<Vec<Self>, u8>;
    fn host_at(way: Way, table: &[Self], taps: usize, phases: usize, source: &[Self], position: f64) -> (u8, Self);
    fn host_reader(way: Way, maximum: usize, margin: usize, table: &[Self], taps: usize, phases: usize) -> Box<dyn Hosted<Self>>;
}

#[derive(Clone, Copy, Debug)]
pub enum Way {
    Strict,
    Lenient,
}

impl Way {
    pub fn any(random: &mut Random) -> Way {
        random.pick(&[Way::Strict, Way::Lenient])
    }
}


pub trait OriginalSinc<T> {
    fn process(&mut self, input: T, delay: f64) -> T;
    fn reset(&mut self);
    fn ring(&mut self) -> &mut Vec<T>;
    fn count(&mut self) -> &mut i64;
}

struct Slice<'a, T>(&'a [T]);

impl SampleSource for Slice<'_, f64> {
    fn at(&self, index: i64) -> f64 {
        usize::try_from(index).ok().and_then(|k| self.0.get(k)).copied().unwrap_or(0.0)
    }
}

impl SampleSourceF32 for Slice<'_, f32> {
    fn at_f32(&self, index: i64) -> f32 {
        usize::try_from(index).ok().and_then(|k| self.0.get(k)).copied().unwrap_or(0.0)
    }
}

macro_rules! original {
    ($float:ty, $reader:ident, $kernel:ident, $trait:ident, $sample:ident, $slice:path, $bits:path, $name:literal, { $($cutoff:ident)? }) => {
        impl OriginalSinc<$float> for $reader<$kernel> {
            fn process(&mut self, input: $float, delay: f64) -> $float {
                self.process_sample(input, delay)
            }
            fn reset(&mut self) {
                $reader::reset(self)
            }
            fn ring(&mut self) -> &mut Vec<$float> {
                &mut self.buffer
            }
            fn count(&mut self) -> &mut i64 {
                &mut self.write_index
            }
        }

        impl Sinc for $float {
            type Reader = $reader<$kernel>;
            const NAME: &'static str = $name;
            fn of(x: f64) -> Self {
                x as $float
            }
            fn pattern(self) -> u64 {
                $bits(self)
            }
            fn finite(self) -> bool {
                self.is_finite()
            }
            fn table(taps: usize, phases: usize, cutoff: f64, beta: f64) -> Vec<Self> {
                $kernel::new(taps, phases, cutoff, beta).table
            }
            fn table_for_max_rate(taps: usize, phases: usize, max_rate: f64, passband: f64, beta: f64) -> Vec<Self> {
                $kernel::for_max_rate(taps, phases, max_rate, passband, beta).table
            }
            fn at(table: &[Self], taps: usize, phases: usize, source: &[Self], position: f64) -> Self {
                use wow_dsp::$trait;
                let kernel = $kernel { taps, phases, table: table.to_vec(), $($cutoff: 1.0)? };
                kernel.$sample(&Slice(source), position)
            }
            fn reader(maximum: usize, margin: usize, table: &[Self], taps: usize, phases: usize) -> Self::Reader {
                $reader::new(maximum, margin, $kernel { taps, phases, table: table.to_vec(), $($cutoff: 1.0)? })
            }
            fn host_table(way: Way, taps: usize, phases: usize, cutoff: f64, beta: f64) -> Result<Vec<Self>, u8> {
                match way {
                    Way::Strict => strict::$kernel::new(taps, phases, cutoff, beta).map(|k| k.values().to_vec()).map_err(|r| r.number()),
                    Way::Lenient => panicked(|| lenient::$kernel::new(taps, phases, cutoff, beta)).map(|k| k.values().to_vec()),
                }
            }
            fn host_table_for_max_rate(way: Way, taps: usize, phases: usize, max_rate: f64, passband: f64, beta: f64) -> Result<Vec<Self>, u8> {
                match way {
                    Way::Strict => strict::$kernel::for_max_rate(taps, phases, max_rate, passband, beta).map(|k| k.values().to_vec()).map_err(|r| r.number()),
                    Way::Lenient => panicked(|| lenient::$kernel::for_max_rate(taps, phases, max_rate, passband, beta)).map(|k| k.values().to_vec()),
                }
            }
            fn host_at(way: Way, table: &[Self], taps: usize, phases: usize, source: &[Self], position: f64) -> (u8, Self) {
                match way {
                    Way::Strict => refused(strict::$trait::$sample(&strict::$kernel::of(taps, phases, table.to_vec()), &$slice(source), position)),
                    Way::Lenient => caught(|| lenient::$trait::$sample(&lenient::$kernel::of(taps, phases, table.to_vec()), &Own(source), position)),
                }
            }
            fn host_reader(way: Way, maximum: usize, margin: usize, table: &[Self], taps: usize, phases: usize) -> Box<dyn Hosted<Self>> {
                let values = table.to_vec();
                match way {
                    Way::Strict => Box::new(strict::$reader::new(maximum, margin, strict::$kernel::of(taps, phases, values)).expect("settings in range")),
                    Way::Lenient => Box::new(lenient::$reader::new(maximum, margin, lenient::$kernel::of(taps, phases, values))),
                }
            }
        }
    };
}

original!(f64, VariableDelay, WindowedSinc, Kernel, sample, host::SliceSource, bits64, "sinc f64", { cutoff });
original!(f32, VariableDelayF32, WindowedSincF32, KernelF32, sample_f32, Own, bits32, "sinc f32", {});
