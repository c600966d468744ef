//! W1. RIFF WAVE files, mostly whole ones, beside the same walk done plainly (wav_files.rs).

use super::{
    turn::Turn,
    value::Value,
    wav_files::{file, found, walk, word},
};
use crate::Export;
use boundary::{self as b, FormatTold, WavePart};

pub const EXPORTS: &[Export] = &[
    ("fugnadri_wav_read", |t| read(t, false, b::wav_read)),
    ("fugnadri_wav_read_wrapped", |t| read(t, true, b::wav_read_wrapped)),
    ("fugnadri_wav_told", told),
    ("fugnadri_wav_samples", |t| samples(t, t.memory.doubles, b::wav_samples, 2, value)),
    ("fugnadri_wav_samples_f32", |t| samples(t, t.memory.floats, b::wav_samples_f32, 2, value_f32)),
    ("fugnadri_wav_whole", |t| samples(t, t.memory.wholes, b::wav_whole, 1, whole)),
];

fn read(t: &mut Turn, wrapped: bool, call: fn(&[u8]) -> (u8, WavePart)) -> u8 {
    let memory = t.memory;
    let bytes = file(&mut t.random);
    let lent = memory.source.lend(&mut t.random, memory.bytes, bytes.len());
    lent.slice().copy_from_slice(&bytes);
    let (number, part) = call(lent.slice());
    let (wanted, meant) = match found(&bytes, wrapped) {
        Ok(part) => (0, part),
        Err(no) => (no, WavePart::default()),
    };
    t.hold(number == wanted, "another refusal is due");
    t.hold(part == meant, "another part, or another kind");
    t.hold(lent.zone_kept() && lent.slice() == bytes, "the file has changed");
    [part.start, part.length, part.rate as usize, part.kind.into()].iter().for_each(|n| t.saw(*n));
    number
}

/// A field of a `fmt `, whose bytes that are missing count as 0.
fn field(f: &[u8], at: usize) -> u32 {
    let byte = |k: usize| f.get(at + k).copied().map_or(0, u32::from);
    byte(0) + 256 * byte(1)
}

fn told(t: &mut Turn) -> u8 {
    let memory = t.memory;
    let bytes = file(&mut t.random);
    let lent = memory.source.lend(&mut t.random, memory.bytes, bytes.len());
    lent.slice().copy_from_slice(&bytes);
    let told = b::wav_told(lent.slice());
    let end = if bytes.len() < 12 { 0 } else { bytes.len().min(8 + word(&bytes, 4)) };
    let (fmt, data, _) = walk(&bytes, end);
    let ((body, size), (_, samples)) = (fmt.unwrap_or_default(), data.unwrap_or_default());
    let f = &bytes[body..bytes.len().min(body + size)];
    let [tag, channels, block, bits] = [0, 2, 12, 14].map(|at| field(f, at));
    t.hold(told == FormatTold { size, tag, channels, block, bits, samples }, "another `fmt ` is told");
    t.hold(lent.zone_kept() && lent.slice() == bytes, "the file has changed");
    [told.size, told.samples, told.tag as usize, told.bits as usize].iter().for_each(|n| t.saw(*n));
    0
}

/// The value of sample k.
fn value(kind: u8, part: &[u8], k: usize) -> f64 {
    match kind {
        2 => f64::from(f32::from_le_bytes(part[4 * k..4 * k + 4].try_into().unwrap())),
        _ => f64::from(whole(kind, part, k)) / 8388608.0,
    }
}

fn value_f32(kind: u8, part: &[u8], k: usize) -> f32 {
    value(kind, part, k) as f32
}

/// Sample k of PCM in units of 2^-23.
fn whole(kind: u8, part: &[u8], k: usize) -> i32 {
    match kind {
        0 => i32::from(i16::from_le_bytes([part[2 * k], part[2 * k + 1]])) * 256,
        _ => i32::from_le_bytes([0, part[3 * k], part[3 * k + 1], part[3 * k + 2]]) >> 8,
    }
}

type Fill<T> = fn(u8, u8, u8, &[u8], &mut [T]) -> u8;

/// One channel of a part, whose kind's code is `last` at most.
pub fn samples<T: Value>(t: &mut Turn, pool: &'static [T], call: Fill<T>, last: u8, of: fn(u8, &[u8], usize) -> T) -> u8 {
    let memory = t.memory;
    let r = &mut t.random;
    let (kind, channels) = (r.count(0, 2) as u8, r.count(1, 2) as u8);
    let channel = if r.one_in(16) { r.word() as u8 } else { (r.word() % u64::from(channels.max(1))) as u8 };
    let frame = if kind <= 2 { usize::from(kind + 2) * usize::from(channels) } else { 4 };
    let frames = (r.word() % 20) as usize;
    let length = frames * frame + usize::from(r.one_in(16));
    let lent = memory.source.lend(r, memory.bytes, length.min(60000));
    let right = if r.one_in(16) { (r.word() % 24) as usize } else { frames };
    let out = memory.table.lend(r, pool, right);
    let part = lent.slice().to_vec();
    let number = call(kind, channels, channel, lent.slice(), out.slice());
    let wanted = if kind > last || !(1..=2).contains(&channels) || channel >= channels {
        1
    } else if part.len() % frame != 0 || part.len() / frame != right {
        2
    } else {
        0
    };
    t.hold(number == wanted, "another refusal is due");
    t.hold(lent.kept(), "the part has changed");
    if number == 0 {
        let place = |k: usize| k * usize::from(channels) + usize::from(channel);
        let same = |k: usize, x: T| x.alike() == of(kind, &part, place(k)).alike();
        t.hold(out.zone_kept() && out.slice().iter().enumerate().all(|(k, x)| same(k, *x)), "a sample is another");
        out.slice().iter().for_each(|x| t.saw(*x));
    } else {
        t.hold(out.kept(), "a refused call has written");
    }
    number
}
