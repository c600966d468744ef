//! One channel's samples of a WAVE file's part, or of an AIFF's, an answer being a sample. The Rust is a loop over the
//! frames whose bytes are a constant, which a compiler takes several samples at a time. No float is a NaN: the Rust hands a NaN's
//! pattern on, the port the one NaN; beside that stands a Rust that tests each float and hands out the one NaN too.
//! Floats are below 2 in size, as sound is; those of the workloads `…_any` and `…_one_nan` are of any size.

use crate::random::Random;
use crate::Workload;

/// By name: making one may take seconds.
pub const WORKLOADS: &[(&str, fn() -> Workload)] = &[
    ("wav_pcm16", pcm16_f64),
    ("wav_pcm16_stereo", pcm16_stereo),
    ("wav_pcm16_f32", pcm16_f32),
    ("wav_pcm24", pcm24_f64),
    ("wav_pcm24_stereo", pcm24_stereo),
    ("wav_pcm24_f32", pcm24_f32),
    ("wav_whole16", whole16),
    ("wav_whole24", whole24),
    ("wav_float", float_f64),
    ("wav_float_stereo", float_stereo),
    ("wav_float_any", float_any),
    ("wav_float_any_stereo", float_any_stereo),
    ("wav_float_one_nan", float_one_nan),
    ("wav_float_one_nan_stereo", float_one_nan_stereo),
    ("wav_float_f32", float_f32),
    ("aiff_pcm16", aiff16_f64),
    ("aiff_pcm16_stereo", aiff16_stereo),
    ("aiff_pcm16_f32", aiff16_f32),
    ("aiff_pcm16_f32_stereo", aiff16_f32_stereo),
    ("aiff_pcm24", aiff24_f64),
    ("aiff_pcm24_stereo", aiff24_stereo),
    ("aiff_pcm24_f32", aiff24_f32),
    ("aiff_pcm24_f32_stereo", aiff24_f32_stereo),
    ("aiff_whole16", aiff_whole16),
    ("aiff_whole16_stereo", aiff_whole16_stereo),
    ("aiff_whole24", aiff_whole24),
    ("aiff_whole24_stereo", aiff_whole24_stereo),
];

const FRAMES: usize = 20000;

/// A part of random bytes; of each 4, were they a float, those bits are taken that the mask has, its low byte first.
fn part(frame: usize, mask: u32) -> Vec<u8> {
    let mut random = Random::new(1);
    (0..FRAMES * frame).map(|k| random.word() as u8 & mask.to_le_bytes()[k % 4]).collect()
}

/// The exponent's last bit is 0, so that no float is a NaN; and its first, so that each is below 2 in size.
const ANY: u32 = 0xff7f_ffff;
const SOUND: u32 = 0xbf7f_ffff;

fn pcm16(bytes: &[u8]) -> i32 {
    i16::from_le_bytes([bytes[0], bytes[1]]) as i32
}

fn pcm24(bytes: &[u8]) -> i32 {
    i32::from_le_bytes([0, bytes[0], bytes[1], bytes[2]]) >> 8
}

fn float(bytes: &[u8]) -> f32 {
    f32::from_le_bytes([bytes[0], bytes[1], bytes[2], bytes[3]])
}

fn one_nan(x: f32) -> f64 {
    if x.is_nan() { f64::from_bits(0x7ff8_0000_0000_0000) } else { x as f64 }
}

/// The answers' room, seen as the samples' type: nothing is copied. A narrower type leaves the end of it unused, and
/// there the first pass puts zeros.
fn room<T>(answers: &mut [u64]) -> &mut [T] {
    let (used, rest) = answers.split_at_mut(FRAMES * std::mem::size_of::<T>() / 8);
    if rest.last().is_some_and(|last| *last != 0) {
        rest.fill(0);
    }
    unsafe { std::slice::from_raw_parts_mut(used.as_mut_ptr().cast(), FRAMES) }
}

macro_rules! fill {
    ($name:ident, $to:ty, $port:ident, $kind:literal, $width:literal, $channels:literal, $mask:ident,
    |$b:ident| $sample:expr) => {
        pub fn $name() -> Workload {
            const FRAME: usize = $width * $channels;
            const FIRST: usize = $width * ($channels - 1);
            #[inline(never)]
            fn rust(part: &[u8], out: &mut [$to]) {
                for (to, frame) in out.iter_mut().zip(part.chunks_exact(FRAME)) {
                    let $b = &frame[FIRST..];
                    *to = $sample;
                }
            }
            let (part, again) = (part(FRAME, $mask), part(FRAME, $mask));
            Workload {
                answers: FRAMES,
                rust: Box::new(move |answers| rust(&part, room(answers))),
                port: Box::new(move |answers| {
                    assert_eq!(boundary::$port($kind, $channels, $channels - 1, &again, room(answers)), 0);
                }),
            }
        }
    };
}

const TO_15: f64 = 1.0 / 32768.0;
const TO_23: f64 = 1.0 / 8388608.0;

fill!(pcm16_f64, f64, wav_samples, 0, 2, 1, ANY, |b| pcm16(b) as f64 * TO_15);
fill!(pcm16_stereo, f64, wav_samples, 0, 2, 2, ANY, |b| pcm16(b) as f64 * TO_15);
fill!(pcm16_f32, f32, wav_samples_f32, 0, 2, 1, ANY, |b| pcm16(b) as f32 * TO_15 as f32);
fill!(pcm24_f64, f64, wav_samples, 1, 3, 1, ANY, |b| pcm24(b) as f64 * TO_23);
fill!(pcm24_stereo, f64, wav_samples, 1, 3, 2, ANY, |b| pcm24(b) as f64 * TO_23);
fill!(pcm24_f32, f32, wav_samples_f32, 1, 3, 1, ANY, |b| pcm24(b) as f32 * TO_23 as f32);
fill!(whole16, i32, wav_whole, 0, 2, 1, ANY, |b| pcm16(b) * 256);
fill!(whole24, i32, wav_whole, 1, 3, 1, ANY, |b| pcm24(b));
fill!(float_f64, f64, wav_samples, 2, 4, 1, SOUND, |b| float(b) as f64);
fill!(float_stereo, f64, wav_samples, 2, 4, 2, SOUND, |b| float(b) as f64);
fill!(float_f32, f32, wav_samples_f32, 2, 4, 1, ANY, |b| float(b));
fill!(float_any, f64, wav_samples, 2, 4, 1, ANY, |b| float(b) as f64);
fill!(float_any_stereo, f64, wav_samples, 2, 4, 2, ANY, |b| float(b) as f64);
fill!(float_one_nan, f64, wav_samples, 2, 4, 1, ANY, |b| one_nan(float(b)));
fill!(float_one_nan_stereo, f64, wav_samples, 2, 4, 2, ANY, |b| one_nan(float(b)));

// an AIFF's part, whose samples have the high byte first

fn high16(bytes: &[u8]) -> i32 {
    i16::from_be_bytes([bytes[0], bytes[1]]) as i32
}

fn high24(bytes: &[u8]) -> i32 {
    i32::from_be_bytes([bytes[0], bytes[1], bytes[2], 0]) >> 8
}

fill!(aiff16_f64, f64, aiff_samples, 0, 2, 1, ANY, |b| high16(b) as f64 * TO_15);
fill!(aiff16_stereo, f64, aiff_samples, 0, 2, 2, ANY, |b| high16(b) as f64 * TO_15);
fill!(aiff16_f32, f32, aiff_samples_f32, 0, 2, 1, ANY, |b| high16(b) as f32 * TO_15 as f32);
fill!(aiff16_f32_stereo, f32, aiff_samples_f32, 0, 2, 2, ANY, |b| high16(b) as f32 * TO_15 as f32);
fill!(aiff24_f64, f64, aiff_samples, 1, 3, 1, ANY, |b| high24(b) as f64 * TO_23);
fill!(aiff24_stereo, f64, aiff_samples, 1, 3, 2, ANY, |b| high24(b) as f64 * TO_23);
fill!(aiff24_f32, f32, aiff_samples_f32, 1, 3, 1, ANY, |b| high24(b) as f32 * TO_23 as f32);
fill!(aiff24_f32_stereo, f32, aiff_samples_f32, 1, 3, 2, ANY, |b| high24(b) as f32 * TO_23 as f32);
fill!(aiff_whole16, i32, aiff_whole, 0, 2, 1, ANY, |b| high16(b) * 256);
fill!(aiff_whole16_stereo, i32, aiff_whole, 0, 2, 2, ANY, |b| high16(b) * 256);
fill!(aiff_whole24, i32, aiff_whole, 1, 3, 1, ANY, |b| high24(b));
fill!(aiff_whole24_stereo, i32, aiff_whole, 1, 3, 2, ANY, |b| high24(b));
