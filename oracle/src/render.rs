//! X2. The job of the program `render`, done by the original, and the samples that both are given.
//!
//! `render play` reads headerless binary32, low byte first, from standard input and writes as many
//! samples to standard output: a `VariableDelayF32<WindowedSincF32>` of 32 taps, 64 phases, cutoff 1
//! and beta 12 over a ring of 1024, at the delay 512 plus the left offset of a `ModulationEngine` with
//! the default settings and the seed 1 at 48000 Hz. A NaN is written as 7FC00000. The original's own
//! answer to a sample that it refuses is 0.0.
//!
//! `render noise SEED SAMPLES` writes samples and a trailing part of three bytes, and says on standard
//! error what is among them. They come in stretches: noise as a recording has it, quiet noise,
//! silence, one value held, values whose sums pass the largest one, any pattern; and about one in 100 is a
//! NaN, an infinity, a zero of either sign or a subnormal number.
//!
//! `render finite SEED SAMPLES` writes samples of at most half of full scale, and no trailing
//! part. `render wav` reads samples and writes them as a WAV file of one channel at 48000 Hz.

mod random;

use random::Random;
use std::io::{Read, Write};
use wow_dsp::modulation::{ModulationEngine, ModulationParams};
use wow_dsp::{VariableDelayF32, WindowedSincF32};

const RARE: [u32; 10] = [
    0x7FC0_0000, 0xFFC0_0001, 0x7F80_0001, 0xFFBF_FFFF, // NaNs of both kinds
    0x7F80_0000, 0xFF80_0000, // infinities
    0x0000_0000, 0x8000_0000, 0x0000_0001, 0x807F_FFFF, // zeros and subnormal numbers
];

fn play(bytes: &[u8]) -> Vec<u8> {
    let kernel = WindowedSincF32::new(32, 64, 1.0, 12.0);
    let mut reader = VariableDelayF32::new(1016, 0, kernel);
    assert_eq!(reader.buffer.len(), 1024);
    let mut engine = ModulationEngine::new(48_000.0, 1);
    let mut out = Vec::with_capacity(bytes.len());
    for word in bytes.chunks_exact(4) {
        let offset = engine.next(ModulationParams::default());
        let x = f32::from_le_bytes([word[0], word[1], word[2], word[3]]);
        let y = reader.process_sample(x, 512.0 + offset.left);
        let bits = if y.is_nan() { 0x7FC0_0000 } else { y.to_bits() };
        out.extend_from_slice(&bits.to_le_bytes());
    }
    out
}

/// A whole multiple of 2^-23 from -1 to 1.
fn fine(random: &mut Random) -> f32 {
    random.within(-(1 << 23), 1 << 23) as f32 / (1 << 23) as f32
}

fn noise(seed: u64, samples: u64) -> Vec<u8> {
    let mut random = Random::new(seed);
    let mut out = Vec::with_capacity(4 * samples as usize + 3);
    let (mut kind, mut left, mut held) = (0, 0, 0.0);
    let mut refused = 0u64;
    for _ in 0..samples {
        if left == 0 {
            kind = random.within(0, 15);
            left = random.within(16, 1024);
            held = fine(&mut random);
        }
        left -= 1;
        let drawn = match kind {
            0 => 0.0,
            1 => held,
            2 => fine(&mut random) * 2f32.powi(random.within(-149, -90) as i32),
            3 => f32::MAX * fine(&mut random),
            4 => f32::from_bits(random.word() as u32),
            5 => fine(&mut random) * 2f32.powi(random.within(-30, 30) as i32),
            _ => fine(&mut random),
        };
        let bits = match random.within(0, 99) {
            0 => RARE[random.within(0, RARE.len() as i64 - 1) as usize],
            _ => drawn.to_bits(),
        };
        refused += !f32::from_bits(bits).is_finite() as u64;
        out.extend_from_slice(&bits.to_le_bytes());
    }
    out.extend_from_slice(&[0x00, 0x80, 0x3F]);
    eprintln!("{samples} samples, {refused} of them refused, and a trailing part of 3 bytes");
    out
}

fn finite(seed: u64, samples: u64) -> Vec<u8> {
    let mut random = Random::new(seed);
    (0..samples).flat_map(|_| (fine(&mut random) / 2.0).to_le_bytes()).collect()
}

/// The published layout of float samples: a `fmt ` of 18 bytes, a `fact` that counts the frames, and `data`.
fn wav(samples: &[u8]) -> Vec<u8> {
    let size = samples.len() as u32;
    let long = |n: u32| n.to_le_bytes();
    let (riff, count, rate, second) = (long(50 + size), long(size / 4), long(48_000), long(192_000));
    let fmt = [&b"fmt "[..], &long(18), &[3, 0, 1, 0], &rate, &second, &[4, 0, 32, 0, 0, 0]].concat();
    let fact = [&b"fact"[..], &long(4), &count].concat();
    [&b"RIFF"[..], &riff, b"WAVE", &fmt, &fact, b"data", &long(size), samples].concat()
}

fn input() -> Vec<u8> {
    let mut bytes = Vec::new();
    std::io::stdin().read_to_end(&mut bytes).expect("standard input");
    bytes
}

fn main() {
    std::process::exit(status())
}

/// What the program does, and the exit status that it ends with.
fn status() -> i32 {
    let words: Vec<String> = std::env::args().skip(1).collect();
    let number = |n: usize| -> u64 { words[n].parse().expect("a number") };
    let out = match words[0].as_str() {
        "noise" => noise(number(1), number(2)),
        "finite" => finite(number(1), number(2)),
        "wav" => wav(&input()),
        _ => play(&input()),
    };
    // no Rust `main`, so nothing flushes what is left
    let mut to = std::io::stdout().lock();
    to.write_all(&out).and_then(|()| to.flush()).expect("standard output");
    0
}
