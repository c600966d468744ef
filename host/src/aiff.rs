//! AIFF files that lie in memory: the part that holds samples, what they are, and each channel's samples.
//!
//! [`read`] takes big-endian PCM of 16 and 24 bits, of one or two channels, at a rate that is a whole number from 8000
//! to 768000. AIFC is refused by 20, any other file by 10, 13, 21 or 22; [`told`] says what it tells of itself. What a
//! sample is worth is what it is in a WAV file.

use crate::{boundary as b, wav::SampleKind, Refusal};

pub use b::ChunksTold as Told;

/// What was found in a file. `part` is the part of it that holds samples, frame by frame, the high byte of each first.
#[derive(Clone, Copy, Debug, PartialEq, Eq)]
pub struct Sound<'a> {
    pub kind: SampleKind,
    pub channels: u8,
    pub rate: u32,
    pub part: &'a [u8],
}

/// Refused by 20, 10, 21, 13, 21 (frames) or 22, in this order.
pub fn read(file: &[u8]) -> Result<Sound<'_>, Refusal> {
    let (number, w) = b::aiff_read(file);
    Refusal::of(number)?;
    let kind = [SampleKind::Pcm16, SampleKind::Pcm24][usize::from(w.kind)];
    Ok(Sound { kind, channels: w.channels, rate: w.rate, part: &file[w.start..w.start + w.length] })
}

/// What a file says of its samples, whether it is refused or not: for who explains a refusal by 13, 21 or 22.
pub fn told(file: &[u8]) -> Told {
    b::aiff_told(file)
}

type Fill<T> = fn(u8, u8, u8, &[u8], &mut [T]) -> u8;

impl Sound<'_> {
    /// How many samples each channel has.
    pub fn frames(&self) -> usize {
        self.part.len().checked_div(self.kind.width() * usize::from(self.channels)).unwrap_or(0)
    }

    /// A channel's samples, counted from 0, as whole multiples of 2^-15 or 2^-23. A channel that is not there is
    /// refused by 1, and so is a float kind, which no AIFF has.
    pub fn channel(&self, channel: u8) -> Result<Vec<f64>, Refusal> {
        self.filled(channel, b::aiff_samples)
    }

    /// The same as f32, which every stored sample is.
    pub fn channel_f32(&self, channel: u8) -> Result<Vec<f32>, Refusal> {
        self.filled(channel, b::aiff_samples_f32)
    }

    /// In units of 2^-23: 24 bits as they are stored, 16 bits × 256.
    pub fn channel_whole(&self, channel: u8) -> Result<Vec<i32>, Refusal> {
        self.filled(channel, b::aiff_whole)
    }

    fn filled<T: Clone + Default>(&self, channel: u8, fill: Fill<T>) -> Result<Vec<T>, Refusal> {
        let mut out = vec![T::default(); self.frames()];
        Refusal::of(fill(self.kind as u8, self.channels, channel, self.part, &mut out)).map(|()| out)
    }
}
