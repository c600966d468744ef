//! A block of samples as stored bytes, an answer being a sample: looked at first, then written, on either side. The
//! Rust is what one would write by hand, with `round_ties_even` and a loop over the bytes of a sample.

use crate::random::Random;
use crate::Workload;

/// By name: making one may take seconds.
pub const WORKLOADS: &[(&str, fn() -> Workload)] = &[
    ("store_pcm16", pcm16),
    ("store_pcm16_f32", pcm16_f32),
    ("store_pcm24", pcm24),
    ("store_pcm24_f32", pcm24_f32),
    ("store_float", float),
    ("store_float_f32", float_f32),
];

const COUNT: usize = 20000;

/// Samples from -1 to 0.99, so that all of them fit.
fn samples() -> Vec<f64> {
    let mut random = Random::new(1);
    (0..COUNT).map(|_| random.unit() * 1.99 - 1.0).collect()
}

/// The answers' room, seen as bytes: nothing is copied. What is left of it is zero from the first pass on.
fn room(answers: &mut [u64], width: usize) -> &mut [u8] {
    let (used, rest) = answers.split_at_mut(COUNT * width / 8);
    if rest.last().is_some_and(|last| *last != 0) {
        rest.fill(0);
    }
    unsafe { std::slice::from_raw_parts_mut(used.as_mut_ptr().cast(), COUNT * width) }
}

macro_rules! store {
    ($name:ident, $from:ty, $port:ident, $kind:literal, $width:literal, |$x:ident| $fits:expr, $bytes:expr) => {
        pub fn $name() -> Workload {
            #[inline(never)]
            fn rust(samples: &[$from], out: &mut [u8]) -> u8 {
                if out.len() != samples.len() * $width {
                    return 2;
                }
                let mut all = true;
                for &$x in samples {
                    all &= $fits;
                }
                if !all {
                    return 15;
                }
                for (to, &$x) in out.chunks_exact_mut($width).zip(samples) {
                    to.copy_from_slice(&$bytes[..$width]);
                }
                0
            }
            let ours: Vec<$from> = samples().iter().map(|&x| x as $from).collect();
            let theirs = ours.clone();
            Workload {
                answers: COUNT,
                rust: Box::new(move |answers| assert_eq!(rust(&theirs, room(answers, $width)), 0)),
                port: Box::new(move |answers| {
                    assert_eq!(boundary::$port($kind, &ours, room(answers, $width)), 0);
                }),
            }
        }
    };
}

fn within(x: f64, end: f64) -> bool {
    x >= -end && x < end
}

store!(pcm16, f64, wav_store, 0, 2, |x| within((x * 32768.0).round_ties_even(), 32768.0),
    ((x * 32768.0).round_ties_even() as i16).to_le_bytes());
store!(pcm24, f64, wav_store, 1, 3, |x| within((x * 8388608.0).round_ties_even(), 8388608.0),
    ((x * 8388608.0).round_ties_even() as i32).to_le_bytes());
store!(float, f64, wav_store, 2, 4, |x| (x as f32).is_finite(), (x as f32).to_le_bytes());
store!(pcm16_f32, f32, wav_store_f32, 0, 2, |x| within((x * 32768.0).round_ties_even() as f64, 32768.0),
    ((x * 32768.0).round_ties_even() as i16).to_le_bytes());
store!(pcm24_f32, f32, wav_store_f32, 1, 3, |x| within((x as f64 * 8388608.0).round_ties_even(), 8388608.0),
    ((x as f64 * 8388608.0).round_ties_even() as i32).to_le_bytes());
store!(float_f32, f32, wav_store_f32, 2, 4, |x| x.is_finite(), x.to_le_bytes());
