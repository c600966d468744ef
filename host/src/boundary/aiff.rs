//! AIFF files: what is found in one, what its `COMM` and its `SSND` tell, and one channel's samples.

use super::wav::{WavePart, UNWRITTEN};

#[rustfmt::skip]
extern "C" {
    fn fugnadri_aiff_read(file: *const u8, file_len: usize, kind: &mut u8, channels: &mut u8, rate: &mut u32, start: &mut usize, size: &mut usize) -> u8;
    fn fugnadri_aiff_told(file: *const u8, file_len: usize, comm: &mut usize, channels: &mut u32, frames: &mut u32, bits: &mut u32, exponent: &mut u32, digits: &mut u64, ssnd: &mut usize, offset: &mut u32);
    fn fugnadri_aiff_samples(kind: u8, channels: u8, channel: u8, part: *const u8, part_len: usize, out: *mut f64, out_len: usize) -> u8;
    fn fugnadri_aiff_samples_f32(kind: u8, channels: u8, channel: u8, part: *const u8, part_len: usize, out: *mut f32, out_len: usize) -> u8;
    fn fugnadri_aiff_whole(kind: u8, channels: u8, channel: u8, part: *const u8, part_len: usize, out: *mut i32, out_len: usize) -> u8;
}

/// The part of a file that holds samples, and what they are: kind 0 is PCM of 16 bits, 1 PCM of 24.
pub fn aiff_read(file: &[u8]) -> (u8, WavePart) {
    let mut w = UNWRITTEN;
    let (at, len) = (file.as_ptr(), file.len());
    let number = unsafe {
        fugnadri_aiff_read(at, len, &mut w.kind, &mut w.channels, &mut w.rate, &mut w.start, &mut w.length)
    };
    (number, w)
}

/// What a file says of its samples, refused or not: the size of its first `COMM`, channels, frames and bits, the rate as
/// it stands (its sign and exponent, its digits), the size of its first `SSND` and its offset; zeros where there is none.
#[derive(Clone, Copy, Debug, Default, PartialEq, Eq)]
pub struct ChunksTold {
    pub comm: usize,
    pub channels: u32,
    pub frames: u32,
    pub bits: u32,
    pub exponent: u32,
    pub digits: u64,
    pub ssnd: usize,
    pub offset: u32,
}

pub fn aiff_told(file: &[u8]) -> ChunksTold {
    let (many, most) = (usize::MAX, u32::MAX);
    let (channels, frames, bits, exponent, offset) = (most, most, most, most, most);
    let mut t = ChunksTold { comm: many, channels, frames, bits, exponent, digits: u64::MAX, ssnd: many, offset };
    let (at, len) = (file.as_ptr(), file.len());
    let ChunksTold { comm, channels, frames, bits, exponent, digits, ssnd, offset } = &mut t;
    unsafe { fugnadri_aiff_told(at, len, comm, channels, frames, bits, exponent, digits, ssnd, offset) };
    t
}

pub fn aiff_samples(kind: u8, channels: u8, channel: u8, part: &[u8], out: &mut [f64]) -> u8 {
    unsafe { fugnadri_aiff_samples(kind, channels, channel, part.as_ptr(), part.len(), out.as_mut_ptr(), out.len()) }
}

pub fn aiff_samples_f32(kind: u8, channels: u8, channel: u8, part: &[u8], out: &mut [f32]) -> u8 {
    unsafe { fugnadri_aiff_samples_f32(kind, channels, channel, part.as_ptr(), part.len(), out.as_mut_ptr(), out.len()) }
}

/// As whole numbers in units of 2^-23: 24 bits as they are stored, 16 bits × 256.
pub fn aiff_whole(kind: u8, channels: u8, channel: u8, part: &[u8], out: &mut [i32]) -> u8 {
    unsafe { fugnadri_aiff_whole(kind, channels, channel, part.as_ptr(), part.len(), out.as_mut_ptr(), out.len()) }
}
