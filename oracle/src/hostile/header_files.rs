//! W10. Headers of RIFF, RF64 and BW64 files that are mostly in order, and their reading, done plainly: every place and
//! size is a number that no sum of them wraps.

use super::wav_files::{chunk, file, fmt, told, BITS};
use crate::random::Random;
use boundary::{WavWalk, WavePart};

const FULL: u32 = u32::MAX;
const LARGEST: u64 = 1 << 40;

fn size(r: &mut Random) -> u64 {
    match r.word() % 8 {
        0 => r.pick(&[0, 4, 1 << 32, LARGEST, LARGEST + 1, 1 << 63, u64::MAX]),
        1 => r.word() >> (r.word() % 64),
        _ => r.word() % 12,
    }
}

fn entry(name: &[u8; 4], size: u64) -> Vec<u8> {
    [name.to_vec(), size.to_le_bytes().to_vec()].concat()
}

/// The first bytes of a file, and its length.
pub fn header(r: &mut Random) -> (Vec<u8>, usize) {
    if r.one_in(16) {
        let all = file(r);
        let n = all.len();
        return at_hand(r, all, n);
    }
    let name = r.pick(&[b"RF64", b"BW64", b"RF64", b"BW64", b"RIFF", b"RIFX"]);
    let (kind, channels) = ((r.word() % 3) as usize, 1 + (r.word() % 2) as u16);
    let block = u64::from(channels) * u64::from(BITS[kind] / 8);
    let data = match r.word() % 4 {
        0 => block * (r.word() % 9),
        1 => LARGEST / block * block + if r.one_in(4) { block } else { 0 },
        _ => block * (r.word() % (LARGEST / block)),
    };
    let table: Vec<u8> = (0..r.word() % 4)
        .flat_map(|_| {
            let name = r.pick(&[b"BIG ", b"LIST", b"ds64", b"data"]);
            entry(name, size(r))
        })
        .collect();
    let mut chunks = Vec::new();
    for k in 0..1 + r.word() % 4 {
        match r.word() % 8 {
            0..=4 if k == 0 => chunk_of(&mut chunks, b"fmt ", fmt(r, kind, channels)),
            0 => chunk_of(&mut chunks, b"fmt ", fmt(r, kind, channels)),
            1 => chunk(&mut chunks, b"BIG ", FULL, b"1234", false),
            2 => chunk(&mut chunks, b"ds64", r.pick(&[28, FULL]), &[0; 28], false),
            _ => chunk_of(&mut chunks, b"LIST", vec![0; (r.word() % 9) as usize]),
        }
    }
    let mut sizes = vec![0; 24];
    let entries = (table.len() / 12) as u32;
    let said = if r.one_in(16) { r.pick(&[0, 1, entries + 1, FULL]) } else { entries };
    sizes.extend(said.to_le_bytes());
    sizes.extend(&table);
    sizes.resize(if r.one_in(32) { (r.word() % 64) as usize } else { sizes.len() }, 9);
    let first = if r.one_in(32) { b"JUNK" } else { b"ds64" };
    let body = if r.one_in(32) { r.pick(&[27, 28, 1 << 20, FULL]) } else { sizes.len() as u32 };
    let head = 12 + 8 + sizes.len() + sizes.len() % 2 + chunks.len() + 8;
    let length = head as u64 + data + data % 2;
    let riff = length - 8 + if r.one_in(8) { r.word() % 24 } else { 0 };
    let wide = [if r.one_in(32) { size(r) } else { riff }, if r.one_in(16) { size(r) } else { data }, data / block];
    sizes.iter_mut().zip(wide.map(u64::to_le_bytes).concat()).for_each(|(x, y)| *x = y);
    let mut all = name.to_vec();
    all.extend((if r.one_in(16) { r.pick(&[0, 3, 4, 100, riff as u32]) } else { FULL }).to_le_bytes());
    all.extend(if r.one_in(64) { b"WAVF" } else { b"WAVE" });
    chunk(&mut all, first, body, &sizes, true);
    all.extend(chunks);
    all.extend(b"data");
    all.extend((if r.one_in(8) { r.word() as u32 % 200 } else { FULL }).to_le_bytes());
    let longer = if r.one_in(4) { r.pick(&[1, 8, 1 << 33, usize::MAX - length as usize]) } else { 0 };
    at_hand(r, all, length as usize + longer)
}

fn chunk_of(out: &mut Vec<u8>, id: &[u8; 4], body: Vec<u8>) {
    chunk(out, id, body.len() as u32, &body, true);
}

/// All of the bytes, or fewer; seldom another length.
fn at_hand(r: &mut Random, mut all: Vec<u8>, length: usize) -> (Vec<u8>, usize) {
    if r.one_in(4) {
        all.truncate((r.word() % (all.len() as u64 + 1)) as usize);
    }
    let length = match r.word() % 32 {
        0 => r.whole() as usize,
        1 => all.len(),
        2 => (r.word() % 100) as usize,
        _ => length,
    };
    (all, length)
}

fn number(f: &[u8], at: usize, count: usize) -> u64 {
    (0..count).map(|k| f.get(at + k).map_or(0, |b| u64::from(*b) << (8 * k))).sum()
}

fn is_long(f: &[u8]) -> bool {
    f.starts_with(b"RF64") || f.starts_with(b"BW64")
}

/// Where there is a `ds64` that counts, as many entries as it has.
fn sizes(f: &[u8], length: usize) -> Option<u64> {
    let body = number(f, 16, 4);
    let there = f.get(12..16) == Some(b"ds64") && body >= 28 && 20 + u128::from(body) <= length as u128;
    there.then(|| number(f, 44, 4).min((body - 28) / 12))
}

/// A chunk's true size.
fn true_size(f: &[u8], id: &[u8], field: u32) -> u64 {
    if !is_long(f) || field != FULL || id == b"ds64" {
        return field.into();
    }
    if id == b"data" {
        return number(f, 28, 8);
    }
    let held = number(f, 16, 4).saturating_sub(28) / 12;
    let entries = number(f, 44, 4).min(held).min(f.len() as u64);
    let found = (0..entries as usize).map(|k| 48 + 12 * k).find(|at| number(f, *at, 4) == number(id, 0, 4));
    // bytes that are not at hand count as 0, and so may an identifier
    found.map_or(FULL.into(), |at| number(f, at + 4, 8))
}

/// How many bytes the opening needs, and what it tells: a refusal or the walk's end.
pub fn opening(f: &[u8], length: usize) -> (usize, Result<usize, u8>) {
    let letters = (f.starts_with(b"RIFF") || is_long(f)) && f.get(8..12) == Some(b"WAVE");
    let ds64 = if is_long(f) { sizes(f, length) } else { None };
    let field = number(f, 4, 4);
    let riff = if ds64.is_some() && field == FULL.into() { number(f, 20, 8) } else { field };
    let needed = [
        (length >= 12, 12),
        (letters && is_long(f) && length >= 20, 20),
        (ds64.is_some(), 48),
        (riff >= 4, 48 + 12 * ds64.unwrap_or(0)),
    ];
    let asked = needed.iter().take_while(|(made, _)| *made).find(|(_, reach)| (f.len() as u64) < *reach);
    let small = |entries: u64| {
        let entry = |k: u64| number(f, 52 + 12 * k as usize, 8) <= LARGEST;
        number(f, 28, 8) <= LARGEST && (0..entries.min(f.len() as u64)).all(entry)
    };
    let told = if length < 12 || !letters || riff < 4 {
        Err(9)
    } else if is_long(f) && ds64.is_none() {
        Err(18)
    } else if !ds64.map_or(true, small) {
        Err(19)
    } else if 8 + u128::from(riff) > length as u128 {
        Err(10)
    } else {
        Ok(8 + riff as usize)
    };
    (asked.map_or(0, |(_, reach)| *reach as usize), told)
}

/// One chunk more.
pub fn turned(opening: &[u8], end: usize, head: &[u8], w: WavWalk) -> WavWalk {
    let w = WavWalk { overruns: u8::from(w.overruns != 0), ..w };
    if w.left < 8 || end < w.left {
        return w;
    }
    let id: Vec<u8> = (0..4).map(|k| head.get(k).copied().unwrap_or(0)).collect();
    let (body, size) = (end - w.left + 8, true_size(opening, &id, number(head, 4, 4) as u32) as usize);
    let room = w.left - 8;
    let first = |was: (usize, usize), name: &[u8]| match was.0 {
        0 if id == name => (body, size),
        0 => (0, 0),
        _ => was,
    };
    let (format, format_size) = first((w.format, w.format_size), b"fmt ");
    let (samples, samples_size) = first((w.samples, w.samples_size), b"data");
    let left = if id == b"data" || room < size { 0 } else { (room - size).saturating_sub(size % 2) };
    WavWalk { left, overruns: w.overruns | u8::from(size > room), format, format_size, samples, samples_size }
}

/// What a walk and the first bytes of `fmt ` tell.
pub fn finished(w: &WavWalk, fmt: &[u8], wrapped: bool) -> Result<WavePart, u8> {
    match (w.overruns, w.format, w.samples) {
        (1.., _, _) => Err(10),
        (_, 0, _) => Err(11),
        (_, _, 0) => Err(12),
        _ => told(fmt, w.format_size, wrapped, w.samples, w.samples_size),
    }
}

/// How many bytes are needed, and the answer.
pub fn read(f: &[u8], length: usize, wrapped: bool) -> (usize, Result<WavePart, u8>) {
    let (mut needs, told) = opening(f, length);
    let mut w = WavWalk { left: told.unwrap_or(0).saturating_sub(12), ..WavWalk::default() };
    let end = told.unwrap_or(0);
    while needs == 0 && w.left >= 8 {
        let at = end - w.left;
        match f.get(at..at + 8) {
            Some(head) => w = turned(f, end, head, w),
            None => needs = at + 8,
        }
    }
    let part = |at: usize, n: usize| &f[at.min(f.len())..at.saturating_add(n).min(f.len())];
    let answer = match told {
        _ if f.len() > length => Err(1),
        _ if needs != 0 => Err(2),
        Err(no) => Err(no),
        Ok(_) => finished(&w, part(w.format, w.format_size.min(40)), wrapped),
    };
    (needs, answer)
}
