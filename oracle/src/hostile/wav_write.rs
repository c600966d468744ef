//! W2, W10. Samples and headers written as WAV files, beside the same bytes made plainly.

use super::{turn::Turn, value::Value};
use crate::{random::Random, Export};
use boundary as b;

pub const EXPORTS: &[Export] = &[
    ("fugnadri_wav_write", |t| file(t, t.memory.doubles, |x| x, b::wav_write)),
    ("fugnadri_wav_write_f32", |t| file(t, t.memory.floats, |x| x as f32, b::wav_write_f32)),
    ("fugnadri_wav_file_length", file_length),
    ("fugnadri_wav_header_length", header_length),
    ("fugnadri_wav_header", header),
    ("fugnadri_wav_store", |t| store(t, t.memory.doubles, |x| x, b::wav_store)),
    ("fugnadri_wav_store_f32", |t| store(t, t.memory.floats, |x| x as f32, b::wav_store_f32)),
];

/// Ends of the ranges, ties at them, and what a float of 32 bits still holds: its greatest, and the tie above it.
const ENDS: [f64; 12] = [
    1.0, 0.999984741210937500, 0.999999940395355224609375, 1.0000152587890625, 1.000000059604644775390625, 0.0, 5e-324,
    1e-40, 3.4028234663852886e38, 3.4028235677973366e38, 8.98846567431158e307, f64::INFINITY,
];

/// A sample: mostly one that fits, often halfway between two that are stored or beside that, seldom an end or anything.
fn sample(r: &mut Random) -> f64 {
    let word = r.word();
    let bits = if word & 1 << 40 == 0 { 16 } else { 24 };
    let tie = ((word as i64 >> (64 - bits)) | 1) as f64 / f64::from(1u32 << bits);
    match word >> 8 & 63 {
        0 => r.pick(&ENDS) * if word & 1 == 0 { 1.0 } else { -1.0 },
        1 if r.one_in(4) => r.float(),
        2..=23 => tie,
        24..=31 => if word & 1 == 0 { tie.next_up() } else { tie.next_down() },
        _ => 2.0 * r.unit() - 1.0,
    }
}

/// A form, a kind's code, channels and a rate: mostly good ones.
fn plan(r: &mut Random) -> (u8, u8, u8, u32) {
    (r.count(0, 1) as u8, r.count(0, 2) as u8, r.count(1, 2) as u8, r.count(8000, 768_000) as u32)
}

fn samples_of<T>(r: &mut Random, channels: u8, of: fn(f64) -> T) -> Vec<T> {
    let frames = r.word() % 12;
    let count = frames * u64::from(channels.clamp(1, 2)) + u64::from(r.one_in(16));
    (0..count).map(|_| of(sample(r))).collect()
}

fn width(kind: u8) -> u128 {
    [2, 3, 4][usize::from(kind)]
}

/// Whether the RIFF's size fits 32 bits.
fn fits(kind: u8, count: usize) -> bool {
    let size = count as u128 * width(kind);
    [44, 44, 58][usize::from(kind)] + size + size % 2 - 8 <= u128::from(u32::MAX)
}

fn head_length(kind: u8, count: usize) -> u128 {
    [44, 44, 58][usize::from(kind)] + if fits(kind, count) { 0 } else { 36 }
}

/// The whole length of a file, as a number that no count of samples makes too long.
fn length(kind: u8, count: usize) -> u128 {
    let size = count as u128 * width(kind);
    head_length(kind, count) + size + size % 2
}

/// 1, 19 or 13: what is due whatever holds the file. Of a kind that is unknown no length is known.
fn refusal(form: u8, kind: u8, channels: u8, rate: u32, count: usize) -> u8 {
    if form > 1 || !(8000..=768_000).contains(&rate) || channels == 2 && count % 2 == 1 {
        1
    } else if kind <= 2 && count as u128 * width(kind) > 1 << 40 {
        19
    } else if kind > 2 || !(1..=2).contains(&channels) {
        13
    } else {
        0
    }
}

/// The bytes before the samples.
fn before(form: u8, kind: u8, channels: u8, rate: u32, count: usize) -> Vec<u8> {
    let float = kind == 2;
    let short_form = fits(kind, count);
    // past RIFF every size of 32 bits is FFFFFFFF
    let word = |n: u128| (n as u32).to_le_bytes();
    let size = |n: u128| if short_form { word(n) } else { [0xFF; 4] };
    let short = |n: u128| (n as u16).to_le_bytes();
    let frame = u128::from(channels) * width(kind);
    let (riff, data) = (length(kind, count) - 8, count as u128 * width(kind));
    let frames = (count / usize::from(channels)) as u128;
    let name = if short_form { *b"RIFF" } else { [*b"RF64", *b"BW64"][usize::from(form)] };
    let mut all = [name, size(riff), *b"WAVE"].concat();
    if !short_form {
        all.extend([*b"ds64", word(28)].concat());
        all.extend([riff, data, frames].map(|n| (n as u64).to_le_bytes()).concat());
        all.extend(word(0));
    }
    all.extend([*b"fmt ", word(if float { 18 } else { 16 })].concat());
    all.extend([short(if float { 3 } else { 1 }), short(channels.into())].concat());
    all.extend([word(rate.into()), word(u128::from(rate) * frame)].concat());
    all.extend([short(frame), short(8 * width(kind))].concat());
    if float {
        all.extend(short(0));
        all.extend([*b"fact", word(4), size(frames)].concat());
    }
    all.extend([*b"data", size(data)].concat());
    all
}

/// One sample's bytes, if it fits.
fn bytes(kind: u8, x: f64) -> Option<Vec<u8>> {
    let whole = |top: f64| {
        let n = (x * top).round_ties_even();
        (n >= -top && n < top).then_some(n as i32)
    };
    match kind {
        0 => whole(32768.0).map(|n| n.to_le_bytes()[..2].to_vec()),
        1 => whole(8_388_608.0).map(|n| n.to_le_bytes()[..3].to_vec()),
        _ => Some(x as f32).filter(|y| y.is_finite()).map(|y| y.to_le_bytes().to_vec()),
    }
}

fn stored<T: Copy + Into<f64>>(kind: u8, samples: &[T]) -> Option<Vec<u8>> {
    samples.iter().map(|x| bytes(kind, (*x).into())).collect::<Option<Vec<_>>>().map(|all| all.concat())
}

/// The lent samples, and whether they and what stands beside them are as they were.
macro_rules! lent {
    ($t:ident, $pool:ident, $samples:ident) => {{
        let lent = $t.memory.source.lend(&mut $t.random, $pool, $samples.len());
        lent.slice().copy_from_slice(&$samples);
        lent
    }};
}

fn kept<T: Value>(now: &[T], was: &[T]) -> bool {
    now.iter().zip(was).all(|(x, y)| x.bits() == y.bits())
}

/// The length that is right, or beside it; `more` is how much longer it may be.
fn room(r: &mut Random, right: usize, more: u64) -> usize {
    match r.word() % 8 {
        0 => right.saturating_sub(1 + (r.word() % 3) as usize),
        1 => (r.word() % 24) as usize,
        2..=4 => right + (r.word() % more) as usize,
        _ => right,
    }
}

type Write<T> = fn(u8, u8, u8, u32, &[T], &mut [u8]) -> (u8, usize);

fn file<T: Value + Into<f64>>(t: &mut Turn, pool: &'static [T], of: fn(f64) -> T, call: Write<T>) -> u8 {
    let (form, kind, channels, rate) = plan(&mut t.random);
    let samples = samples_of(&mut t.random, channels, of);
    let lent = lent!(t, pool, samples);
    let right = length(kind.min(2), samples.len()) as usize;
    let room = room(&mut t.random, right, 40);
    let out = t.memory.table.lend(&mut t.random, t.memory.bytes, room);
    let old = out.slice().to_vec();
    let (number, written) = call(form, kind, channels, rate, lent.slice(), out.slice());
    let early = refusal(form, kind, channels, rate, samples.len());
    let meant = match stored(kind, &samples) {
        _ if early != 0 => Err(early),
        _ if room < right => Err(14),
        None => Err(15),
        Some(all) => {
            let head = before(form, kind, channels, rate, samples.len());
            Ok([head, all, vec![0; right]].concat()[..right].to_vec())
        }
    };
    t.hold(number == meant.as_ref().err().copied().unwrap_or(0), "another refusal is due");
    t.hold(written == meant.as_ref().map_or(0, |file| file.len()), "another length is told");
    t.hold(lent.zone_kept() && kept(lent.slice(), &samples), "the samples have changed");
    match meant {
        Ok(file) => {
            t.hold(out.zone_kept() && out.slice()[..right] == file, "the file is another");
            t.hold(out.slice()[right..] == old[right..], "what stands behind the file has changed");
            out.slice()[..right].iter().for_each(|x| t.saw(*x));
        }
        Err(_) => t.hold(out.kept(), "a refused call has written"),
    }
    number
}

/// Many samples too: a length is a number.
fn many(r: &mut Random) -> usize {
    match r.word() % 8 {
        0 => r.whole() as usize,
        1 | 2 => (r.pick(&[2_147_483_629u64, 1_431_655_753, 1_073_741_811, 1 << 32]) + r.word() % 4 - 2) as usize,
        3 | 4 => (r.pick(&[1u64 << 39, (1 << 40) / 3, 1 << 38]) + r.word() % 4 - 2) as usize,
        _ => (r.word() % 5000) as usize,
    }
}

fn file_length(t: &mut Turn) -> u8 {
    let (_, kind, channels, _) = plan(&mut t.random);
    let count = many(&mut t.random);
    let told = b::wav_file_length(kind, channels, count);
    let meant = if refusal(0, kind, channels, 8000, count) == 0 { length(kind, count) } else { 0 };
    t.hold(told as u128 == meant, "another length is told");
    t.saw(told);
    0
}

fn header_length(t: &mut Turn) -> u8 {
    let (_, kind, _, _) = plan(&mut t.random);
    let count = many(&mut t.random);
    let told = b::wav_header_length(kind, count);
    t.hold(told as u128 == if kind <= 2 { head_length(kind, count) } else { 0 }, "another length is told");
    t.saw(told);
    0
}

fn header(t: &mut Turn) -> u8 {
    let (form, kind, channels, rate) = plan(&mut t.random);
    let count = many(&mut t.random);
    let right = head_length(kind.min(2), count) as usize;
    let room = room(&mut t.random, right, 40);
    let out = t.memory.table.lend(&mut t.random, t.memory.bytes, room);
    let old = out.slice().to_vec();
    let number = b::wav_header(form, kind, channels, rate, count, out.slice());
    let wanted = match refusal(form, kind, channels, rate, count) {
        0 if room < right => 14,
        other => other,
    };
    t.hold(number == wanted, "another refusal is due");
    if number == 0 {
        let head = before(form, kind, channels, rate, count);
        t.hold(out.zone_kept() && out.slice()[..right] == head, "the header is another");
        t.hold(out.slice()[right..] == old[right..], "what stands behind the header has changed");
        head.iter().for_each(|x| t.saw(*x));
    } else {
        t.hold(out.kept(), "a refused call has written");
    }
    number
}

type Store<T> = fn(u8, &[T], &mut [u8]) -> u8;

fn store<T: Value + Into<f64>>(t: &mut Turn, pool: &'static [T], of: fn(f64) -> T, call: Store<T>) -> u8 {
    let (_, kind, channels, _) = plan(&mut t.random);
    let samples = samples_of(&mut t.random, channels, of);
    let lent = lent!(t, pool, samples);
    let right = samples.len() * width(kind.min(2)) as usize;
    let room = room(&mut t.random, right, 2);
    let out = t.memory.table.lend(&mut t.random, t.memory.bytes, room);
    let number = call(kind, lent.slice(), out.slice());
    let meant = match stored(kind, &samples) {
        _ if kind > 2 => Err(13),
        _ if room != right => Err(2),
        None => Err(15),
        Some(all) => Ok(all),
    };
    t.hold(number == meant.as_ref().err().copied().unwrap_or(0), "another refusal is due");
    t.hold(lent.zone_kept() && kept(lent.slice(), &samples), "the samples have changed");
    match meant {
        Ok(all) => {
            t.hold(out.zone_kept() && out.slice() == all, "a sample is stored otherwise");
            all.iter().for_each(|x| t.saw(*x));
        }
        Err(_) => t.hold(out.kept(), "a refused call has written"),
    }
    number
}
