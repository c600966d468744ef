//! A file's header apart from its samples, read and written: RIFF, and past four gigabytes RF64 and BW64.

use super::{kind_of, SampleKind};
use crate::{boundary as b, Refusal};
use std::io::{Read, Result as Done, Seek, SeekFrom};

/// The identifier of a file past RIFF: of EBU Tech 3306, or of ITU-R BS.2088.
#[derive(Clone, Copy, Debug, Eq, Hash, PartialEq)]
#[repr(u8)]
pub enum Form {
    Rf64 = 0,
    Bw64 = 1,
}

/// What was found by a file's first bytes: its samples are `length` bytes from the place `start` on.
#[derive(Clone, Copy, Debug, PartialEq, Eq)]
pub struct Header {
    pub kind: SampleKind,
    pub channels: u8,
    pub rate: u32,
    pub start: usize,
    pub length: usize,
}

/// A file of `length` bytes by its first ones, of which those up to its samples are looked at. Refused by 1 (more bytes
/// than the file has), 2 (more are needed, and [`needs`] says how many), 9, 18, 19, 10 to 13. A kind that is wrapped is
/// refused by 13.
pub fn read_header(prefix: &[u8], length: usize) -> Result<Header, Refusal> {
    found(b::wav_read_header(prefix, length))
}

/// The same, but that a wrapped kind is read by what is inside.
pub fn read_header_wrapped(prefix: &[u8], length: usize) -> Result<Header, Refusal> {
    found(b::wav_read_header_wrapped(prefix, length))
}

/// How many of a file's first bytes are to be handed in where 2 is due; 0 where enough are at hand.
pub fn needs(prefix: &[u8], length: usize) -> usize {
    b::wav_needs(prefix, length)
}

fn found((number, w): (u8, b::WavePart)) -> Result<Header, Refusal> {
    Refusal::of(number)?;
    Ok(Header { kind: kind_of(w.kind), channels: w.channels, rate: w.rate, start: w.start, length: w.length })
}

/// [`read_header_wrapped`] of a file that can be sought, by turns: only its opening, the 8 bytes at the head of each chunk
/// and 40 bytes of `fmt ` are read. The outer result is the file's own.
pub fn open<F: Read + Seek>(file: &mut F) -> Done<Result<Header, Refusal>> {
    let length = file.seek(SeekFrom::End(0))? as usize;
    let mut opening = Vec::new();
    let (number, end, mut walk) = loop {
        let begun = b::wav_begin(&opening, length);
        let more = b::wav_needs(&opening, length);
        if begun.0 != 2 || more <= opening.len() {
            break begun;
        }
        opening = part(file, 0, more)?;
    };
    if let Err(refusal) = Refusal::of(number) {
        return Ok(Err(refusal));
    }
    while walk.left >= 8 {
        let head = part(file, end - walk.left, 8)?;
        b::wav_turn(&opening, end, &head, &mut walk);
    }
    let fmt = part(file, walk.format, walk.format_size.min(40))?;
    Ok(found(b::wav_finish(&walk, &fmt)))
}

/// So many bytes of a file from a place on, fewer where it ends.
fn part<F: Read + Seek>(file: &mut F, at: usize, size: usize) -> Done<Vec<u8>> {
    let mut bytes = Vec::new();
    file.seek(SeekFrom::Start(at as u64))?;
    file.take(size as u64).read_to_end(&mut bytes)?;
    Ok(bytes)
}

/// How many bytes stand before `count` samples: 44 for PCM, 58 for float, and 36 more where the file does not fit RIFF.
pub fn header_length(kind: SampleKind, count: usize) -> usize {
    b::wav_header_length(kind as u8, count)
}

/// The bytes before `count` samples, over all channels. A file that fits RIFF is RIFF, whatever the form. Refused by 1 (a
/// rate outside 8000 to 768000, broken frames), 19 (more than 2^40 bytes of samples) or 13 (channels other than one or
/// two).
pub fn header(form: Form, kind: SampleKind, channels: u8, rate: u32, count: usize) -> Result<Vec<u8>, Refusal> {
    let mut bytes = vec![0; header_length(kind, count)];
    header_into(form, kind, channels, rate, count, &mut bytes).map(|_| bytes)
}

/// The same into a buffer: the header's length. What stands behind it stays as it was. Refused besides by 14, a buffer that
/// is shorter than the header; a refused call writes nothing.
pub fn header_into(
    form: Form,
    kind: SampleKind,
    channels: u8,
    rate: u32,
    count: usize,
    out: &mut [u8],
) -> Result<usize, Refusal> {
    Refusal::of(b::wav_header(form as u8, kind as u8, channels, rate, count, out)).map(|()| header_length(kind, count))
}
