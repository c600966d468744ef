//! WAV files: what is found in one or by its first bytes, what its `fmt ` tells, and one channel's samples.

#[rustfmt::skip]
extern "C" {
    fn fugnadri_wav_read(file: *const u8, file_len: usize, kind: &mut u8, channels: &mut u8, rate: &mut u32, start: &mut usize, size: &mut usize) -> u8;
    fn fugnadri_wav_read_wrapped(file: *const u8, file_len: usize, kind: &mut u8, channels: &mut u8, rate: &mut u32, start: &mut usize, size: &mut usize) -> u8;
    fn fugnadri_wav_told(file: *const u8, file_len: usize, size: &mut usize, tag: &mut u32, channels: &mut u32, block: &mut u32, bits: &mut u32, samples: &mut usize);
    fn fugnadri_wav_read_header(prefix: *const u8, prefix_len: usize, length: usize, kind: &mut u8, channels: &mut u8, rate: &mut u32, start: &mut usize, size: &mut usize) -> u8;
    fn fugnadri_wav_read_header_wrapped(prefix: *const u8, prefix_len: usize, length: usize, kind: &mut u8, channels: &mut u8, rate: &mut u32, start: &mut usize, size: &mut usize) -> u8;
    fn fugnadri_wav_needs(prefix: *const u8, prefix_len: usize, length: usize) -> usize;
    fn fugnadri_wav_begin(opening: *const u8, opening_len: usize, length: usize, end: &mut usize, left: &mut usize) -> u8;
    fn fugnadri_wav_turn(opening: *const u8, opening_len: usize, end: usize, head: *const u8, head_len: usize, left: &mut usize, overruns: &mut u8, format: &mut usize, format_size: &mut usize, samples: &mut usize, samples_size: &mut usize);
    fn fugnadri_wav_finish(overruns: u8, format: usize, format_size: usize, samples: usize, samples_size: usize, fmt: *const u8, fmt_len: usize, kind: &mut u8, channels: &mut u8, rate: &mut u32, start: &mut usize, size: &mut usize) -> u8;
    fn fugnadri_wav_samples(kind: u8, channels: u8, channel: u8, part: *const u8, part_len: usize, out: *mut f64, out_len: usize) -> u8;
    fn fugnadri_wav_samples_f32(kind: u8, channels: u8, channel: u8, part: *const u8, part_len: usize, out: *mut f32, out_len: usize) -> u8;
    fn fugnadri_wav_whole(kind: u8, channels: u8, channel: u8, part: *const u8, part_len: usize, out: *mut i32, out_len: usize) -> u8;
}

/// The part of a file that holds samples, and what they are: kind 0 is PCM of 16 bits, 1 PCM of 24, 2 IEEE float of 32.
#[derive(Clone, Copy, Debug, Default, PartialEq, Eq)]
pub struct WavePart {
    pub kind: u8,
    pub channels: u8,
    pub rate: u32,
    pub start: usize,
    pub length: usize,
}

/// Nothing of it is 0, so that what is not written shows.
pub(crate) const UNWRITTEN: WavePart =
    WavePart { kind: u8::MAX, channels: u8::MAX, rate: u32::MAX, start: usize::MAX, length: usize::MAX };

pub fn wav_read(file: &[u8]) -> (u8, WavePart) {
    let mut w = UNWRITTEN;
    let (at, len) = (file.as_ptr(), file.len());
    let number = unsafe {
        fugnadri_wav_read(at, len, &mut w.kind, &mut w.channels, &mut w.rate, &mut w.start, &mut w.length)
    };
    (number, w)
}

/// A kind that is wrapped, tag FFFE, is read by what is inside.
pub fn wav_read_wrapped(file: &[u8]) -> (u8, WavePart) {
    let mut w = UNWRITTEN;
    let (at, len) = (file.as_ptr(), file.len());
    let number = unsafe {
        fugnadri_wav_read_wrapped(at, len, &mut w.kind, &mut w.channels, &mut w.rate, &mut w.start, &mut w.length)
    };
    (number, w)
}

/// A file of `length` bytes by its first ones.
pub fn wav_read_header(prefix: &[u8], length: usize) -> (u8, WavePart) {
    let mut w = UNWRITTEN;
    let (at, len) = (prefix.as_ptr(), prefix.len());
    let WavePart { kind, channels, rate, start, length: size } = &mut w;
    let number = unsafe { fugnadri_wav_read_header(at, len, length, kind, channels, rate, start, size) };
    (number, w)
}

/// The same, a wrapped kind by what is inside.
pub fn wav_read_header_wrapped(prefix: &[u8], length: usize) -> (u8, WavePart) {
    let mut w = UNWRITTEN;
    let (at, len) = (prefix.as_ptr(), prefix.len());
    let WavePart { kind, channels, rate, start, length: size } = &mut w;
    let number = unsafe { fugnadri_wav_read_header_wrapped(at, len, length, kind, channels, rate, start, size) };
    (number, w)
}

/// How many of the first bytes such a reading needs; 0 where enough are at hand.
pub fn wav_needs(prefix: &[u8], length: usize) -> usize {
    unsafe { fugnadri_wav_needs(prefix.as_ptr(), prefix.len(), length) }
}

/// A walk over a file's chunks on its way: what is left before its end, whether a chunk ran past that, and place and size
/// of the first `fmt ` and of the first `data`.
#[derive(Clone, Copy, Debug, Default, PartialEq, Eq)]
pub struct WavWalk {
    pub left: usize,
    pub overruns: u8,
    pub format: usize,
    pub format_size: usize,
    pub samples: usize,
    pub samples_size: usize,
}

/// The refusal's number, the walk's end, and the walk before its first turn.
pub fn wav_begin(opening: &[u8], length: usize) -> (u8, usize, WavWalk) {
    let (mut end, mut left) = (usize::MAX, usize::MAX);
    let number = unsafe { fugnadri_wav_begin(opening.as_ptr(), opening.len(), length, &mut end, &mut left) };
    (number, end, WavWalk { left, ..WavWalk::default() })
}

/// One chunk more, by its first 8 bytes.
pub fn wav_turn(opening: &[u8], end: usize, head: &[u8], walk: &mut WavWalk) {
    let (at, len, to, size) = (opening.as_ptr(), opening.len(), head.as_ptr(), head.len());
    let WavWalk { left, overruns, format, format_size, samples, samples_size } = walk;
    unsafe { fugnadri_wav_turn(at, len, end, to, size, left, overruns, format, format_size, samples, samples_size) }
}

/// What the walk and the first bytes of `fmt ` tell.
pub fn wav_finish(walk: &WavWalk, fmt: &[u8]) -> (u8, WavePart) {
    let mut w = UNWRITTEN;
    let (at, len) = (fmt.as_ptr(), fmt.len());
    let WavWalk { overruns, format, format_size, samples, samples_size, .. } = *walk;
    let WavePart { kind, channels, rate, start, length } = &mut w;
    let number = unsafe {
        fugnadri_wav_finish(
            overruns, format, format_size, samples, samples_size, at, len, kind, channels, rate, start, length,
        )
    };
    (number, w)
}

/// What a file says of its samples, refused or not: the size of its first `fmt `, tag, channels, block size and bits,
/// and the size of its first `data`; zeros where there is none.
#[derive(Clone, Copy, Debug, Default, PartialEq, Eq)]
pub struct FormatTold {
    pub size: usize,
    pub tag: u32,
    pub channels: u32,
    pub block: u32,
    pub bits: u32,
    pub samples: usize,
}

pub fn wav_told(file: &[u8]) -> FormatTold {
    let (many, most) = (usize::MAX, u32::MAX);
    let mut t = FormatTold { size: many, tag: most, channels: most, block: most, bits: most, samples: many };
    let (at, len) = (file.as_ptr(), file.len());
    let FormatTold { size, tag, channels, block, bits, samples } = &mut t;
    unsafe { fugnadri_wav_told(at, len, size, tag, channels, block, bits, samples) };
    t
}

pub fn wav_samples(kind: u8, channels: u8, channel: u8, part: &[u8], out: &mut [f64]) -> u8 {
    unsafe { fugnadri_wav_samples(kind, channels, channel, part.as_ptr(), part.len(), out.as_mut_ptr(), out.len()) }
}

pub fn wav_samples_f32(kind: u8, channels: u8, channel: u8, part: &[u8], out: &mut [f32]) -> u8 {
    unsafe { fugnadri_wav_samples_f32(kind, channels, channel, part.as_ptr(), part.len(), out.as_mut_ptr(), out.len()) }
}

/// PCM as whole numbers in units of 2^-23: 24 bits as they are stored, 16 bits × 256.
pub fn wav_whole(kind: u8, channels: u8, channel: u8, part: &[u8], out: &mut [i32]) -> u8 {
    unsafe { fugnadri_wav_whole(kind, channels, channel, part.as_ptr(), part.len(), out.as_mut_ptr(), out.len()) }
}
