//! W10. Headers read apart from the samples, at once and by turns, beside the same done plainly (header_files.rs).

use super::{
    header_files::{finished, header, opening, read, turned},
    memory::Lent,
    turn::Turn,
};
use crate::Export;
use boundary::{self as b, WavWalk, WavePart};

pub const EXPORTS: &[Export] = &[
    ("fugnadri_wav_read_header", |t| read_header(t, false, b::wav_read_header)),
    ("fugnadri_wav_read_header_wrapped", |t| read_header(t, true, b::wav_read_header_wrapped)),
    ("fugnadri_wav_needs", needs),
    ("fugnadri_wav_begin", begin),
    ("fugnadri_wav_turn", turn),
    ("fugnadri_wav_finish", finish),
];

fn lent(t: &mut Turn, bytes: &[u8]) -> Lent<u8> {
    let lent = t.memory.source.lend(&mut t.random, t.memory.bytes, bytes.len());
    lent.slice().copy_from_slice(bytes);
    lent
}

fn held(t: &mut Turn, (number, part): (u8, WavePart), meant: Result<WavePart, u8>) -> u8 {
    let (wanted, meant) = meant.map_or_else(|no| (no, WavePart::default()), |part| (0, part));
    t.hold(number == wanted, "another refusal is due");
    t.hold(part == meant, "another part, or another kind");
    [part.start, part.length, part.rate as usize, part.kind.into()].iter().for_each(|n| t.saw(*n));
    number
}

fn read_header(t: &mut Turn, wrapped: bool, call: fn(&[u8], usize) -> (u8, WavePart)) -> u8 {
    let (first, length) = header(&mut t.random);
    let lent = lent(t, &first);
    let answer = call(lent.slice(), length);
    t.hold(lent.zone_kept() && lent.slice() == first, "the bytes have changed");
    held(t, answer, read(&first, length, wrapped).1)
}

fn needs(t: &mut Turn) -> u8 {
    let (first, length) = header(&mut t.random);
    let lent = lent(t, &first);
    let told = b::wav_needs(lent.slice(), length);
    t.hold(told == read(&first, length, false).0, "another number of bytes is asked for");
    t.hold(lent.zone_kept() && lent.slice() == first, "the bytes have changed");
    t.saw(told);
    0
}

fn begin(t: &mut Turn) -> u8 {
    let (first, length) = header(&mut t.random);
    let lent = lent(t, &first);
    let (number, end, walk) = b::wav_begin(lent.slice(), length);
    let (asked, told) = opening(&first, length);
    let wanted = match told {
        _ if first.len() > length => Err(1),
        _ if asked != 0 => Err(2),
        other => other,
    };
    t.hold(number == wanted.err().unwrap_or(0), "another refusal is due");
    t.hold(end == wanted.unwrap_or(0) && walk.left == end.saturating_sub(12), "another end");
    t.hold(lent.zone_kept() && lent.slice() == first, "the bytes have changed");
    t.saw(end);
    number
}

/// Any walk, any head; or all the turns of a header, and the answer of the whole.
fn turn(t: &mut Turn) -> u8 {
    let (first, length) = header(&mut t.random);
    let lent = lent(t, &first);
    let r = &mut t.random;
    let mut walk = WavWalk {
        left: r.whole() as usize,
        overruns: r.word() as u8 % 3,
        format: r.whole() as usize * (r.word() % 2) as usize,
        format_size: r.whole() as usize,
        samples: r.whole() as usize * (r.word() % 2) as usize,
        samples_size: r.whole() as usize,
    };
    let end = if r.one_in(2) { r.whole() as usize } else { walk.left.saturating_add((r.word() % 99) as usize) };
    let any = [r.word().to_le_bytes(), r.word().to_le_bytes()].concat();
    let name = r.pick(&[b"fmt ", b"data", b"LIST", b"BIG ", b"ds64", b"\0\0\0\0"]);
    let mut head = [name.to_vec(), r.pick(&[u32::MAX, 0, 16, 7]).to_le_bytes().to_vec()].concat();
    if r.one_in(4) {
        head = any[..(r.word() % 12) as usize].to_vec();
    }
    let was = walk;
    let at = t.memory.table.lend(&mut t.random, t.memory.bytes, head.len());
    at.slice().copy_from_slice(&head);
    b::wav_turn(lent.slice(), end, at.slice(), &mut walk);
    t.hold(walk == turned(&first, end, &head, was), "another walk");
    t.hold(lent.zone_kept() && lent.slice() == first && at.zone_kept() && at.slice() == head, "the bytes have changed");
    [walk.left, walk.format, walk.format_size, walk.samples, walk.samples_size].iter().for_each(|n| t.saw(*n));
    by_turns(t, &first, length);
    0
}

/// The answer by turns is that of the reading at once, where enough is at hand.
fn by_turns(t: &mut Turn, first: &[u8], length: usize) {
    let (needs, answer) = read(first, length, true);
    if needs != 0 || first.len() > length {
        return;
    }
    let (number, end, mut walk) = b::wav_begin(first, length);
    while number == 0 && walk.left >= 8 {
        let at = end - walk.left;
        b::wav_turn(first, end, &first[at..at + 8], &mut walk);
    }
    let fmt = &first[walk.format.min(first.len())..];
    let found = if number == 0 {
        b::wav_finish(&walk, &fmt[..fmt.len().min(walk.format_size).min(40)])
    } else {
        (number, WavePart::default())
    };
    held(t, found, answer);
}

fn finish(t: &mut Turn) -> u8 {
    let (first, _) = header(&mut t.random);
    let r = &mut t.random;
    let from = (r.word() % (first.len() as u64 + 1)) as usize;
    let fmt = first.windows(4).position(|four| four == b"fmt ").map_or(from, |at| (at + 8).min(first.len()));
    let fmt = if r.one_in(8) { &first[from..] } else { &first[fmt..] };
    let fmt = &fmt[..fmt.len().min((r.word() % 44) as usize + if r.one_in(2) { 16 } else { 40 })];
    let walk = WavWalk {
        left: 0,
        overruns: if r.one_in(8) { r.word() as u8 } else { 0 },
        format: if r.one_in(8) { 0 } else { r.whole() as usize },
        format_size: r.pick(&[16, 18, 40, 42, 15, 0, usize::MAX]),
        samples: if r.one_in(8) { 0 } else { r.whole() as usize },
        samples_size: if r.one_in(4) { r.whole() as usize } else { 24 * (r.word() % 9) as usize },
    };
    let lent = lent(t, fmt);
    let answer = b::wav_finish(&walk, lent.slice());
    t.hold(lent.zone_kept() && lent.slice() == fmt, "the bytes have changed");
    held(t, answer, finished(&walk, fmt, true))
}
