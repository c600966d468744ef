//! WAV files. RIFF WAVE files that lie in memory: the part that holds samples, what they are, and each channel's
//! samples. Files of any length, RF64 and BW64 among them, by their headers. And files written.
//!
//! [`read`] takes PCM of 16 and 24 bits and IEEE float of 32, of one or two channels. [`read_wrapped`] takes besides
//! what sox and ffmpeg wrap as WAVE_FORMAT_EXTENSIBLE (tag FFFE). Any other file is refused by 9 to 13; [`told`] says
//! what it tells of itself.
//!
//! [`read_header`] takes a file's first bytes and its length, [`open`] a file that can be sought: RIFF, RF64 or BW64, with
//! sizes up to 2^40 bytes.
//!
//! [`write`] makes a file of samples: rounded to nearest, ties to even, and refused where one does not fit. What is read
//! back has the same kind, channels and rate, and the same stored samples.

mod headers;

use crate::{boundary as b, Refusal};

pub use b::FormatTold as Told;
pub use headers::{header, header_into, header_length, needs, open, read_header, read_header_wrapped, Form, Header};

/// How a sample is stored.
#[derive(Clone, Copy, Debug, Eq, Hash, PartialEq)]
#[repr(u8)]
pub enum SampleKind {
    Pcm16 = 0,
    Pcm24 = 1,
    Float32 = 2,
}

impl SampleKind {
    /// A stored sample's bytes.
    pub fn width(self) -> usize {
        self as usize + 2
    }
}

/// What was found in a file. `part` is the part of it that holds samples, frame by frame.
#[derive(Clone, Copy, Debug, PartialEq, Eq)]
pub struct Wave<'a> {
    pub kind: SampleKind,
    pub channels: u8,
    pub rate: u32,
    pub part: &'a [u8],
}

/// Refused by 9 to 13. A kind that is wrapped is refused by 13.
pub fn read(file: &[u8]) -> Result<Wave<'_>, Refusal> {
    found(file, b::wav_read(file))
}

/// The same, but that a wrapped kind is read by what is inside.
pub fn read_wrapped(file: &[u8]) -> Result<Wave<'_>, Refusal> {
    found(file, b::wav_read_wrapped(file))
}

/// What a file says of its samples, whether it is refused or not: for who explains a refusal by 13.
pub fn told(file: &[u8]) -> Told {
    b::wav_told(file)
}

fn kind_of(code: u8) -> SampleKind {
    [SampleKind::Pcm16, SampleKind::Pcm24, SampleKind::Float32][usize::from(code)]
}

fn found(file: &[u8], (number, w): (u8, b::WavePart)) -> Result<Wave<'_>, Refusal> {
    Refusal::of(number)?;
    let part = &file[w.start..w.start + w.length];
    Ok(Wave { kind: kind_of(w.kind), channels: w.channels, rate: w.rate, part })
}

type Fill<T> = fn(u8, u8, u8, &[u8], &mut [T]) -> u8;

impl Wave<'_> {
    /// How many samples each channel has.
    pub fn frames(&self) -> usize {
        self.part.len().checked_div(self.kind.width() * usize::from(self.channels)).unwrap_or(0)
    }

    /// A channel's samples, counted from 0: PCM as whole multiples of 2^-15 or 2^-23, float as it is stored, every NaN
    /// as the one that is handed out. A channel that is not there is refused by 1.
    pub fn channel(&self, channel: u8) -> Result<Vec<f64>, Refusal> {
        self.filled(channel, b::wav_samples)
    }

    /// The same as f32, which every stored sample is.
    pub fn channel_f32(&self, channel: u8) -> Result<Vec<f32>, Refusal> {
        self.filled(channel, b::wav_samples_f32)
    }

    /// PCM in units of 2^-23: 24 bits as they are stored, 16 bits × 256. A float file is refused by 1.
    pub fn channel_whole(&self, channel: u8) -> Result<Vec<i32>, Refusal> {
        self.filled(channel, b::wav_whole)
    }

    fn filled<T: Clone + Default>(&self, channel: u8, fill: Fill<T>) -> Result<Vec<T>, Refusal> {
        let mut out = vec![T::default(); self.frames()];
        Refusal::of(fill(self.kind as u8, self.channels, channel, self.part, &mut out)).map(|()| out)
    }
}

/// A file of samples, which are those of all channels, frame by frame: RIFF, and where that does not hold it RF64. Refused
/// by 1 (a rate outside 8000 to 768000, broken frames), 19 (more than 2^40 bytes of samples), 13 (channels other than one
/// or two) or 15 (a sample is NaN, or does not fit once it is rounded).
pub fn write(kind: SampleKind, channels: u8, rate: u32, samples: &[f64]) -> Result<Vec<u8>, Refusal> {
    let mut file = vec![0; file_length(kind, channels, samples.len())];
    write_into(kind, channels, rate, samples, &mut file).map(|_| file)
}

/// The same of f32s.
pub fn write_f32(kind: SampleKind, channels: u8, rate: u32, samples: &[f32]) -> Result<Vec<u8>, Refusal> {
    let mut file = vec![0; file_length(kind, channels, samples.len())];
    write_into_f32(kind, channels, rate, samples, &mut file).map(|_| file)
}

/// How long a file of `count` samples is, over all channels; 0 where it is refused by 1, 19 or 13 whatever the rate.
pub fn file_length(kind: SampleKind, channels: u8, count: usize) -> usize {
    b::wav_file_length(kind as u8, channels, count)
}

/// [`write`] into a buffer: the file's length. What stands behind the file stays as it was. Refused besides by 14, a buffer
/// that is shorter than the file; a refused call writes nothing.
pub fn write_into(kind: SampleKind, channels: u8, rate: u32, samples: &[f64], out: &mut [u8]) -> Result<usize, Refusal> {
    let (number, length) = b::wav_write(Form::Rf64 as u8, kind as u8, channels, rate, samples, out);
    Refusal::of(number).map(|()| length)
}

/// The same of f32s.
pub fn write_into_f32(
    kind: SampleKind,
    channels: u8,
    rate: u32,
    samples: &[f32],
    out: &mut [u8],
) -> Result<usize, Refusal> {
    let (number, length) = b::wav_write_f32(Form::Rf64 as u8, kind as u8, channels, rate, samples, out);
    Refusal::of(number).map(|()| length)
}
