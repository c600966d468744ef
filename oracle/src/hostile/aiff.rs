//! W12. AIFF files, mostly whole ones, beside the same walk done plainly (aiff_files.rs).

use super::{
    aiff_files::{file, found, head, number, walk},
    turn::Turn,
    wav::samples,
};
use crate::Export;
use boundary::{self as b, ChunksTold, WavePart};

pub const EXPORTS: &[Export] = &[
    ("fugnadri_aiff_read", read),
    ("fugnadri_aiff_told", told),
    ("fugnadri_aiff_samples", |t| samples(t, t.memory.doubles, b::aiff_samples, 1, value)),
    ("fugnadri_aiff_samples_f32", |t| samples(t, t.memory.floats, b::aiff_samples_f32, 1, value_f32)),
    ("fugnadri_aiff_whole", |t| samples(t, t.memory.wholes, b::aiff_whole, 1, whole)),
];

fn read(t: &mut Turn) -> u8 {
    let memory = t.memory;
    let bytes = file(&mut t.random);
    let lent = memory.source.lend(&mut t.random, memory.bytes, bytes.len());
    lent.slice().copy_from_slice(&bytes);
    let (number, part) = b::aiff_read(lent.slice());
    let (wanted, meant) = match found(&bytes) {
        Ok(part) => (0, part),
        Err(no) => (no, WavePart::default()),
    };
    t.hold(number == wanted, "another refusal is due");
    t.hold(part == meant, "another part, kind or rate");
    t.hold(lent.zone_kept() && lent.slice() == bytes, "the file has changed");
    [part.start, part.length, part.rate as usize, part.kind.into()].iter().for_each(|n| t.saw(*n));
    number
}

fn told(t: &mut Turn) -> u8 {
    let memory = t.memory;
    let bytes = file(&mut t.random);
    let lent = memory.source.lend(&mut t.random, memory.bytes, bytes.len());
    lent.slice().copy_from_slice(&bytes);
    let told = b::aiff_told(lent.slice());
    let end = if bytes.len() < 12 { 0 } else { bytes.len().min(8 + number(&bytes[4..8]) as usize) };
    let (comm, ssnd, _) = walk(&bytes, end);
    let (c, s) = (head(&bytes, comm, 18), head(&bytes, ssnd, 8));
    let field = |from: usize, to: usize| number(&c[c.len().min(from)..c.len().min(to)]);
    let meant = ChunksTold {
        comm: comm.unwrap_or_default().1,
        channels: field(0, 2) as u32,
        frames: field(2, 6) as u32,
        bits: field(6, 8) as u32,
        exponent: field(8, 10) as u32,
        digits: field(10, 18),
        ssnd: ssnd.unwrap_or_default().1,
        offset: number(&s[..s.len().min(4)]) as u32,
    };
    t.hold(told == meant, "another `COMM` or `SSND` is told");
    t.hold(lent.zone_kept() && lent.slice() == bytes, "the file has changed");
    [told.comm, told.ssnd, told.bits as usize, told.digits as usize].iter().for_each(|n| t.saw(*n));
    0
}

fn value(kind: u8, part: &[u8], k: usize) -> f64 {
    f64::from(whole(kind, part, k)) / 8388608.0
}

fn value_f32(kind: u8, part: &[u8], k: usize) -> f32 {
    value(kind, part, k) as f32
}

/// Sample k in units of 2^-23.
fn whole(kind: u8, part: &[u8], k: usize) -> i32 {
    match kind {
        0 => i32::from(i16::from_be_bytes([part[2 * k], part[2 * k + 1]])) * 256,
        _ => i32::from_be_bytes([part[3 * k], part[3 * k + 1], part[3 * k + 2], 0]) >> 8,
    }
}
