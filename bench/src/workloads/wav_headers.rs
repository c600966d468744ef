//! W10. Headers of RF64 files read and written, an answer being a header. The Rust is what one would write by hand: the
//! same tests, sizes from `ds64`, and a walk over the chunks with checked places.

use crate::random::Random;
use crate::Workload;

/// By name: making one may take seconds.
pub const WORKLOADS: &[(&str, fn() -> Workload)] = &[
    ("header_read", reading),
    ("header_written", writing),
];

const COUNT: usize = 2000;
const FULL: u32 = u32::MAX;
const LARGEST: u64 = 1 << 40;

/// Frames of two channels of float, from 2^29 on: past RIFF.
fn frames() -> Vec<usize> {
    let mut random = Random::new(1);
    (0..COUNT).map(|_| (1 << 29) + (random.word() % (1 << 36)) as usize).collect()
}

#[inline(never)]
fn written(rate: u32, frames: usize, out: &mut [u8]) -> u8 {
    let data = frames as u64 * 8;
    if !(8000..=768_000).contains(&rate) {
        return 1;
    }
    if data > LARGEST {
        return 19;
    }
    if out.len() < 94 {
        return 14;
    }
    let mut at = 0;
    let mut put = |bytes: &[u8]| {
        out[at..at + bytes.len()].copy_from_slice(bytes);
        at += bytes.len();
    };
    put(b"RF64");
    put(&FULL.to_le_bytes());
    put(b"WAVEds64");
    put(&28u32.to_le_bytes());
    put(&(data + 86).to_le_bytes());
    put(&data.to_le_bytes());
    put(&(frames as u64).to_le_bytes());
    put(&0u32.to_le_bytes());
    put(b"fmt ");
    put(&18u32.to_le_bytes());
    put(&3u16.to_le_bytes());
    put(&2u16.to_le_bytes());
    put(&rate.to_le_bytes());
    put(&(rate * 8).to_le_bytes());
    put(&8u16.to_le_bytes());
    put(&32u16.to_le_bytes());
    put(&0u16.to_le_bytes());
    put(b"fact");
    put(&4u32.to_le_bytes());
    put(&FULL.to_le_bytes());
    put(b"data");
    put(&FULL.to_le_bytes());
    0
}

fn word(f: &[u8], at: usize) -> Option<u32> {
    f.get(at..at + 4).map(|b| u32::from_le_bytes(b.try_into().unwrap()))
}

fn wide(f: &[u8], at: usize) -> Option<u64> {
    f.get(at..at + 8).map(|b| u64::from_le_bytes(b.try_into().unwrap()))
}

fn half(f: &[u8], at: usize) -> Option<u16> {
    f.get(at..at + 2).map(|b| u16::from_le_bytes(b.try_into().unwrap()))
}

/// Where the samples start and how many bytes they have, of a float file of one or two channels.
#[inline(never)]
fn read(f: &[u8], length: u64) -> Option<(u64, u64)> {
    if f.get(..4) != Some(b"RF64") || f.get(8..16) != Some(b"WAVEds64") || word(f, 16)? < 28 {
        return None;
    }
    let (riff, data, entries) = (wide(f, 20)?, wide(f, 28)?, word(f, 44)?.min((word(f, 16)? - 28) / 12) as usize);
    let small = (0..entries).all(|k| wide(f, 52 + 12 * k).is_some_and(|n| n <= LARGEST));
    if data > LARGEST || !small || riff.checked_add(8)? > length {
        return None;
    }
    let (end, mut at, mut format) = (riff + 8, 12u64, None);
    while end - at >= 8 {
        let head = f.get(at as usize..at as usize + 8)?;
        let (name, field, body) = (&head[..4], word(head, 4)?, at + 8);
        let size = match name {
            b"data" if field == FULL => data,
            _ if field == FULL => {
                let found = (0..entries).find(|k| f.get(48 + 12 * k..52 + 12 * k) == Some(name));
                found.and_then(|k| wide(f, 52 + 12 * k)).unwrap_or(FULL.into())
            }
            _ => field.into(),
        };
        if size > end - body {
            return None;
        }
        if name == b"fmt " && format.is_none() {
            format = Some(f.get(body as usize..(body + size) as usize)?);
        }
        if name == b"data" {
            let fmt = format?;
            let (channels, block) = (half(fmt, 2)?, half(fmt, 12)?);
            let good = half(fmt, 0)? == 3 && half(fmt, 14)? == 32 && (1..=2).contains(&channels) && block == channels * 4;
            return (good && size % u64::from(block) == 0).then_some((body, size));
        }
        at = (body + size + size % 2).min(end);
    }
    None
}

/// The header's bytes, and the file's length.
fn headers() -> Vec<(Vec<u8>, usize)> {
    let header = |frames: usize| {
        let mut bytes = vec![0; 94];
        assert_eq!(written(96_000, frames, &mut bytes), 0);
        (bytes, 94 + 8 * frames)
    };
    frames().into_iter().map(header).collect()
}

pub fn reading() -> Workload {
    let (theirs, ours) = (headers(), headers());
    Workload {
        answers: COUNT,
        rust: Box::new(move |answers| {
            for (to, (bytes, length)) in answers.iter_mut().zip(&theirs) {
                *to = read(bytes, *length as u64).map_or(0, |(start, size)| start ^ size);
            }
        }),
        port: Box::new(move |answers| {
            for (to, (bytes, length)) in answers.iter_mut().zip(&ours) {
                let (number, part) = boundary::wav_read_header(bytes, *length);
                assert_eq!(number, 0);
                *to = (part.start ^ part.length) as u64;
            }
        }),
    }
}

/// A header's bytes as one number.
fn sum(bytes: &[u8; 94]) -> u64 {
    u64::from_le_bytes(bytes[20..28].try_into().unwrap()) ^ u64::from_le_bytes(bytes[86..94].try_into().unwrap())
}

pub fn writing() -> Workload {
    let (theirs, ours) = (frames(), frames());
    Workload {
        answers: COUNT,
        rust: Box::new(move |answers| {
            let mut out = [0; 94];
            for (to, frames) in answers.iter_mut().zip(&theirs) {
                assert_eq!(written(96_000, *frames, &mut out), 0);
                *to = sum(&out);
            }
        }),
        port: Box::new(move |answers| {
            let mut out = [0; 94];
            for (to, frames) in answers.iter_mut().zip(&ours) {
                assert_eq!(boundary::wav_header(0, 2, 2, 96_000, 2 * frames, &mut out), 0);
                *to = sum(&out);
            }
        }),
    }
}
