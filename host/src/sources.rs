//! What a kernel reads from: a slice, or anyone's own source.

use crate::{boundary::floor, Refusal};

/// Integer sample access. A source answers zero before index 0, as a slice does: a kernel that meets another value there refuses by 1.
pub trait SampleSource {
    fn at(&self, index: i64) -> f64;

    /// The slice behind a source that is one.
    #[doc(hidden)]
    fn slice(&self) -> Option<&[f64]> {
        None
    }
}

/// The same for f32.
pub trait SampleSourceF32 {
    fn at_f32(&self, index: i64) -> f32;
}

/// A slice, and zero before its start and past its end.
pub struct SliceSource<'a>(pub &'a [f64]);

impl SampleSource for SliceSource<'_> {
    fn at(&self, index: i64) -> f64 {
        usize::try_from(index).ok().and_then(|i| self.0.get(i)).copied().unwrap_or(0.0)
    }

    fn slice(&self) -> Option<&[f64]> {
        Some(self.0)
    }
}

/// The most taps that a kernel has.
const MOST: usize = 128;

/// The taps that a kernel reads at a position, as a ring that has accepted `count` samples: tap i stands at place i modulo the ring's length, so
/// the position is handed on as it is and its fraction rounds as in the original. Where the kernel refuses anyway the ring is empty.
pub struct Gathered<T> {
    pub ring: [T; MOST],
    pub count: u64,
}

pub fn gather<T: Copy + Default>(
    taps: usize,
    position: f64,
    at: impl Fn(i64) -> T,
    bits: impl Fn(T) -> u64,
) -> Result<Gathered<T>, Refusal> {
    let mut gathered = Gathered { ring: [T::default(); MOST], count: 0 };
    let in_range = position.abs() <= 68_719_476_736.0 && (2..=MOST).contains(&taps);
    if !in_range {
        return Ok(gathered);
    }
    let first = floor(position) - (taps as i64 / 2 - 1);
    for index in first..first + taps as i64 {
        let value = at(index);
        match usize::try_from(index) {
            Ok(place) => gathered.ring[place % MOST] = value,
            Err(_) if bits(value) == 0 => {}
            Err(_) => return Err(Refusal::Setting),
        }
    }
    gathered.count = (first + taps as i64).max(0) as u64;
    Ok(gathered)
}
