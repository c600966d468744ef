//! W1. RIFF WAVE files that are mostly whole, and the walk of one, done plainly.

use crate::random::Random;
use boundary::WavePart;

pub const BITS: [u16; 3] = [16, 24, 32];

pub fn chunk(out: &mut Vec<u8>, id: &[u8; 4], size: u32, body: &[u8], pad: bool) {
    out.extend_from_slice(id);
    out.extend_from_slice(&size.to_le_bytes());
    out.extend_from_slice(body);
    if pad && body.len() % 2 == 1 {
        out.push(0);
    }
}

/// What stands behind the 16 bytes of a kind that is wrapped: each condition is seldom broken.
fn wrapping(r: &mut Random, tag: u16, bits: u16) -> Vec<u8> {
    let mut tail = *b"\0\0\x10\0\x80\0\0\xAA\0\x38\x9B\x71";
    let (mut extension, mut valid, mut inside) = (r.pick(&[22u16, 22, 24]), bits, u32::from(tag));
    match r.word() % 32 {
        0 => extension = r.pick(&[0, 21, 23, u16::MAX]),
        1 => valid = r.pick(&[0, bits - 1, bits + 1]),
        2 => inside = r.pick(&[0, 1, 2, 3, 0xFFFE, 0x1_0001, 0x1_0003]),
        3 => tail[(r.word() % 12) as usize] ^= 1 << (r.word() % 8),
        _ => {}
    }
    let mut body = [extension, valid].map(u16::to_le_bytes).concat();
    body.extend([r.word() as u32, inside].map(u32::to_le_bytes).concat());
    body.extend(tail);
    body
}

pub fn fmt(r: &mut Random, kind: usize, channels: u16) -> Vec<u8> {
    let mut bits = BITS[kind];
    let mut tag = if kind == 2 { 3u16 } else { 1 };
    let mut block = channels * (bits / 8);
    let behind = if r.one_in(3) { wrapping(r, tag, bits) } else { Vec::new() };
    if !behind.is_empty() {
        tag = 0xFFFE;
    }
    match r.word() % 64 {
        0 => tag = r.pick(&[0, 2, 3, 0xFFFE, 1]),
        1 => bits = r.pick(&[8, 16, 24, 32, 0]),
        2 => block = block.wrapping_add(r.pick(&[1, 0xFFFF])),
        _ => {}
    }
    let mut body = Vec::new();
    body.extend_from_slice(&tag.to_le_bytes());
    body.extend_from_slice(&channels.to_le_bytes());
    body.extend_from_slice(&(r.word() as u32).to_le_bytes());
    body.extend_from_slice(&(r.word() as u32).to_le_bytes());
    body.extend_from_slice(&block.to_le_bytes());
    body.extend_from_slice(&bits.to_le_bytes());
    let length = match (r.one_in(32), behind.is_empty()) {
        (true, _) => (r.word() % 42) as usize,
        (false, true) => r.pick(&[16, 18, 17, 40]),
        (false, false) => r.pick(&[40, 40, 41, 42]),
    };
    body.extend(behind);
    body.resize(length, 7);
    body
}

/// A file that is mostly in order: `fmt `, `data` and others, sizes that mostly fit.
pub fn file(r: &mut Random) -> Vec<u8> {
    if r.one_in(64) {
        return (0..r.word() % 80).map(|_| r.word() as u8).collect();
    }
    let (kind, channels) = ((r.word() % 3) as usize, if r.one_in(16) { r.word() % 4 } else { 1 + r.word() % 2 } as u16);
    let mut rest = b"WAVE".to_vec();
    for k in 0..r.word() % 6 + 2 {
        let (id, body) = match (k, r.word() % 8) {
            (0, 0..=5) | (_, 0) => (b"fmt ", fmt(r, kind, channels)),
            (_, 1..=4) if k > 0 || r.one_in(4) => (b"data", {
                let whole = usize::from(channels) * usize::from(BITS[kind] / 8) * (r.word() % 6) as usize;
                (0..whole + usize::from(r.one_in(32))).map(|_| r.word() as u8).collect()
            }),
            _ => (b"LIST", (0..r.word() % 9).map(|_| r.word() as u8).collect::<Vec<u8>>()),
        };
        let length = body.len() as u32;
        let size = if r.one_in(64) { r.pick(&[0, u32::MAX, length + 1, 1 << 31]) } else { length };
        chunk(&mut rest, id, size, &body, !r.one_in(32));
    }
    rest.truncate(if r.one_in(8) { rest.len() - (r.word() % 9) as usize } else { rest.len() });
    let length = rest.len() as u32;
    let size = if r.one_in(16) { r.pick(&[0, 3, 4, 5, length + 1, length / 2, u32::MAX]) } else { length };
    let mut all = Vec::new();
    chunk(&mut all, if r.one_in(64) { b"RIFX" } else { b"RIFF" }, size, &rest, false);
    all.resize(all.len() + if r.one_in(4) { (r.word() % 12) as usize } else { 0 }, 3);
    all
}

pub fn word(f: &[u8], at: usize) -> usize {
    u32::from_le_bytes(f[at..at + 4].try_into().unwrap()) as usize
}

fn half(f: &[u8], at: usize) -> u16 {
    u16::from_le_bytes([f[at], f[at + 1]])
}

type Spot = Option<(usize, usize)>;

/// The walk, plainly, before an end: the first `fmt ` and the first `data`, and whether the last chunk runs past it.
pub fn walk(f: &[u8], end: usize) -> (Spot, Spot, bool) {
    let (mut at, mut fmt, mut data, mut over) = (12, None, None, false);
    while at + 8 <= end && data.is_none() && !over {
        let (body, size) = (at + 8, word(f, at + 4));
        match &f[at..at + 4] {
            b"fmt " => fmt = fmt.or(Some((body, size))),
            b"data" => data = Some((body, size)),
            _ => {}
        }
        over = body + size > end;
        at = body + size + size % 2;
    }
    (fmt, data, over)
}

/// The tag, or what is inside a wrapped one.
fn tag(f: &[u8], wrapped: bool) -> u32 {
    let tail = b"\0\0\x10\0\x80\0\0\xAA\0\x38\x9B\x71";
    if wrapped && half(f, 0) == 0xFFFE && f.len() >= 40 {
        if half(f, 16) >= 22 && half(f, 18) == half(f, 14) && &f[28..40] == tail {
            return word(f, 24) as u32;
        }
    }
    half(f, 0).into()
}

pub fn found(f: &[u8], wrapped: bool) -> Result<WavePart, u8> {
    if f.len() < 12 || &f[..4] != b"RIFF" || &f[8..12] != b"WAVE" || word(f, 4) < 4 {
        return Err(9);
    }
    let end = 8 + word(f, 4);
    if end > f.len() {
        return Err(10);
    }
    let (fmt, data, over) = walk(f, end);
    if over {
        return Err(10);
    }
    let ((body, size), (start, length)) = (fmt.ok_or(11)?, data.ok_or(12)?);
    told(&f[body..body + size], size, wrapped, start, length)
}

/// What a `fmt ` of so many bytes tells of a part; of its bytes the first 40 count, and those that are missing are 0.
pub fn told(fmt: &[u8], size: usize, wrapped: bool, start: usize, length: usize) -> Result<WavePart, u8> {
    let mut fmt = fmt[..fmt.len().min(40)].to_vec();
    fmt.resize(size.min(40), 0);
    if size < 16 {
        return Err(13);
    }
    let kind = match (tag(&fmt, wrapped), half(&fmt, 14)) {
        (1, 16) => 0,
        (1, 24) => 1,
        (3, 32) => 2,
        _ => return Err(13),
    };
    let (channels, block) = (half(&fmt, 2), usize::from(half(&fmt, 12)));
    let bytes = usize::from(channels) * usize::from(half(&fmt, 14) / 8);
    if !(1..=2).contains(&channels) || block != bytes || length % block != 0 {
        return Err(13);
    }
    Ok(WavePart { kind, channels: channels as u8, rate: word(&fmt, 4) as u32, start, length })
}
