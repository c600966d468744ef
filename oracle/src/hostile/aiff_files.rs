//! W12. AIFF files that are mostly whole, and the walk of one, done plainly.

use crate::random::Random;
use boundary::WavePart;

fn chunk(out: &mut Vec<u8>, id: &[u8; 4], size: u32, body: &[u8], pad: bool) {
    out.extend_from_slice(id);
    out.extend_from_slice(&size.to_be_bytes());
    out.extend_from_slice(body);
    if pad && body.len() % 2 == 1 {
        out.push(0);
    }
}

/// A whole number as an 80-bit extended one, seldom another number or none.
fn extended(r: &mut Random, rate: u64) -> [u8; 10] {
    let top = 63 - u64::from(rate.max(1).leading_zeros());
    let shift = if r.one_in(8) { r.word() % (64 - top) } else { 0 };
    let (mut field, mut digits) = ((16383 + top + shift) as u16, rate << (63 - top) >> shift);
    match r.word() % 64 {
        0 => field ^= 0x8000,
        1 => field = r.pick(&[0, 16382, 16396, 16402, 16446, 16447, 0x7FFF, 0xFFFF]),
        2 => digits ^= 1 << (r.word() % 64),
        3 => digits = r.word(),
        _ => {}
    }
    let mut ten = [0; 10];
    ten[..2].copy_from_slice(&field.to_be_bytes());
    ten[2..].copy_from_slice(&digits.to_be_bytes());
    ten
}

fn comm(r: &mut Random, bits: u16, channels: u16, frames: u32) -> Vec<u8> {
    let (mut bits, mut frames) = (bits, frames);
    match r.word() % 32 {
        0 => bits = r.pick(&[8, 16, 24, 32, 0, 20]),
        1 => frames = r.pick(&[0, frames + 1, u32::MAX, 1 << 31, 0x5555_5556]),
        _ => {}
    }
    let rate = r.pick(&[8000, 44100, 48000, 96000, 768000, 7999, 768001, 44100, 48000]);
    let mut body = channels.to_be_bytes().to_vec();
    body.extend(frames.to_be_bytes());
    body.extend(bits.to_be_bytes());
    body.extend(extended(r, rate));
    body.resize(if r.one_in(32) { (r.word() % 24) as usize } else { r.pick(&[18, 18, 19, 22]) }, 7);
    body
}

fn ssnd(r: &mut Random, bytes: usize) -> Vec<u8> {
    let offset = r.pick(&[0u32, 0, 0, 1, 4, 7]);
    let told = if r.one_in(32) { r.pick(&[u32::MAX, 1 << 31, offset + 1, 12]) } else { offset };
    let mut body = [told, r.pick(&[0, 0, 512, u32::MAX])].map(u32::to_be_bytes).concat();
    body.extend((0..bytes + offset as usize).map(|_| r.word() as u8));
    let length = body.len();
    body.truncate(if r.one_in(16) { length - (r.word() as usize % 9).min(length) } else { length });
    body
}

/// A file that is mostly in order: `COMM`, `SSND` in either order and others, sizes that mostly fit.
pub fn file(r: &mut Random) -> Vec<u8> {
    if r.one_in(64) {
        return (0..r.word() % 80).map(|_| r.word() as u8).collect();
    }
    let channels = if r.one_in(16) { r.word() % 4 } else { 1 + r.word() % 2 } as u16;
    let (bits, frames) = (r.pick(&[16u16, 24]), (r.word() % 6) as u32);
    let bytes = usize::from(channels) * usize::from(bits / 8) * frames as usize;
    let mut rest = if r.one_in(64) { b"AIFC".to_vec() } else { b"AIFF".to_vec() };
    let first = r.word() % 2;
    for k in 0..r.word() % 5 + 2 {
        let (id, body) = match (k, r.word() % 8) {
            (0 | 1, 0..=6) if k == first => (b"COMM", comm(r, bits, channels, frames)),
            (0 | 1, 0..=6) => (b"SSND", ssnd(r, bytes)),
            (_, 0) => (b"COMM", comm(r, bits, channels, frames)),
            (_, 1) => (b"SSND", ssnd(r, bytes)),
            _ => (b"NAME", (0..r.word() % 9).map(|_| r.word() as u8).collect::<Vec<u8>>()),
        };
        let length = body.len() as u32;
        let size = if r.one_in(64) { r.pick(&[0, u32::MAX, length + 1, 1 << 31]) } else { length };
        chunk(&mut rest, id, size, &body, !r.one_in(32));
    }
    rest.truncate(if r.one_in(8) { rest.len() - (r.word() % 9) as usize } else { rest.len() });
    let length = rest.len() as u32;
    let size = if r.one_in(16) { r.pick(&[0, 3, 4, 5, length + 1, length / 2, u32::MAX]) } else { length };
    let mut all = Vec::new();
    chunk(&mut all, if r.one_in(64) { b"RIFF" } else { b"FORM" }, size, &rest, false);
    all.resize(all.len() + if r.one_in(4) { (r.word() % 12) as usize } else { 0 }, 3);
    all
}

pub fn number(some: &[u8]) -> u64 {
    some.iter().fold(0, |n, byte| n * 256 + u64::from(*byte))
}

type Spot = Option<(usize, usize)>;

/// The first `most` bytes of a body, fewer where it has fewer.
pub fn head(f: &[u8], spot: Spot, most: usize) -> &[u8] {
    let (body, size) = spot.unwrap_or_default();
    &f[f.len().min(body)..f.len().min(body + size.min(most))]
}

/// The walk, plainly, before an end: the first `COMM` and the first `SSND`, and whether the last chunk runs past it.
pub fn walk(f: &[u8], end: usize) -> (Spot, Spot, bool) {
    let (mut at, mut comm, mut ssnd, mut over) = (12, None, None, false);
    while at + 8 <= end && !over {
        let (body, size) = (at + 8, number(&f[at + 4..at + 8]) as usize);
        match &f[at..at + 4] {
            b"COMM" => comm = comm.or(Some((body, size))),
            b"SSND" => ssnd = ssnd.or(Some((body, size))),
            _ => {}
        }
        over = body + size > end;
        at = body + size + size % 2;
    }
    (comm, ssnd, over)
}

/// The rate: the digits are halved or doubled until the exponent is that of a 1 with its digits at the right.
fn rate(field: u64, digits: u64) -> Option<u32> {
    let (mut field, mut digits) = (field, u128::from(digits));
    while field < 16446 && digits > 0 && digits % 2 == 0 {
        (field, digits) = (field + 1, digits / 2);
    }
    while field > 16446 && digits <= 768000 && digits > 0 {
        (field, digits) = (field - 1, digits * 2);
    }
    (field == 16446 && (8000..=768000).contains(&digits)).then_some(digits as u32)
}

pub fn found(f: &[u8]) -> Result<WavePart, u8> {
    if f.len() < 12 || &f[..4] != b"FORM" || &f[8..12] != b"AIFF" || number(&f[4..8]) < 4 {
        return Err(20);
    }
    let end = 8 + number(&f[4..8]) as usize;
    if end > f.len() {
        return Err(10);
    }
    let (comm, ssnd, over) = walk(f, end);
    if over {
        return Err(10);
    }
    let (Some((at, long)), Some((body, size))) = (comm, ssnd) else { return Err(21) };
    if long < 18 || size < 8 {
        return Err(21);
    }
    let skipped = 8 + number(&f[body..body + 4]) as usize;
    if skipped > size {
        return Err(21);
    }
    let c = &f[at..at + 18];
    let (channels, frames, bits) = (number(&c[..2]), number(&c[2..6]), number(&c[6..8]));
    if !(1..=2).contains(&channels) || (bits != 16 && bits != 24) {
        return Err(13);
    }
    let length = (frames * channels * bits / 8) as usize;
    if skipped + length > size {
        return Err(21);
    }
    let rate = rate(number(&c[8..10]), number(&c[10..])).ok_or(22)?;
    Ok(WavePart { kind: u8::from(bits == 24), channels: channels as u8, rate, start: body + skipped, length })
}
