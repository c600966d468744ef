//! `files tone FOLDER` writes a tone for every kind, number of channels and rate; `files write FOLDER` writes it as WAV
//! by the static libraries; `files compare FOLDER` reads the WAV, RF64 and AIFF files that oracle/files had made of it,
//! compares what the static libraries and what each program read with the tone, and so what each program read from the
//! files written here.

use boundary as b;
use std::{collections::BTreeMap, f64::consts::TAU, fs, io::Result, path::Path};

const KINDS: [(&str, u32); 3] = [("pcm16", 16), ("pcm24", 24), ("float32", 24)];
const RATES: [u32; 3] = [44_100, 48_000, 96_000];
const FRAMES: usize = 2000;
/// An odd number, so that PCM of 24 bits has a pad byte.
const WRITTEN: usize = 1999;

/// The whole numbers of a tone, frame by frame: the ends of the range first, then a sine, another for each channel.
fn tone(bits: u32, channels: u32, rate: u32) -> Vec<i32> {
    let top = 1i32 << (bits - 1);
    let ends = [-top, top - 1, 0, 1, -1, 127, 128, -128, -129, 255, 256, -256, top / 2, -top / 2];
    let sine = |k: usize, channel: u32| {
        let turns = k as f64 * f64::from(441 + 220 * channel) / f64::from(rate);
        (0.9 * f64::from(top) * (TAU * turns).sin()).round() as i32
    };
    let at = |k: usize, c: u32| ends.get(k + c as usize).copied().unwrap_or_else(|| sine(k, c));
    (0..FRAMES).flat_map(|k| (0..channels).map(move |c| (k, c))).map(|(k, c)| at(k, c)).collect()
}

/// A stored sample's bytes, the low one first.
fn stored(kind: usize, n: i32) -> Vec<u8> {
    match kind {
        0 => (n as i16).to_le_bytes().to_vec(),
        1 => n.to_le_bytes()[..3].to_vec(),
        _ => (n as f32 / 8_388_608.0).to_le_bytes().to_vec(),
    }
}

fn value(bits: u32, n: i32) -> f64 {
    f64::from(n) / f64::from(1u32 << (bits - 1))
}

/// Sun's layout, which libsndfile reads: a header of six words, high byte first, then the samples, high byte first.
fn au(kind: usize, channels: u32, rate: u32, samples: &[Vec<u8>]) -> Vec<u8> {
    let bytes = samples.concat().len() as u32;
    let encoding = [3, 4, 6][kind];
    let mut all = b".snd".to_vec();
    [24, bytes, encoding, rate, channels].iter().for_each(|n: &u32| all.extend(n.to_be_bytes()));
    samples.iter().for_each(|s| all.extend(s.iter().rev()));
    all
}

fn each() -> impl Iterator<Item = (String, usize, u32, u32)> {
    let all = |kind: usize| (1..=2).flat_map(move |channels| RATES.map(|rate| (kind, channels, rate)));
    (0..3).flat_map(all).map(|(kind, c, rate)| (format!("{}-{c}-{rate}", KINDS[kind].0), kind, c, rate))
}

fn write_tones(folder: &Path) -> Result<()> {
    for (name, kind, channels, rate) in each() {
        let samples: Vec<Vec<u8>> = tone(KINDS[kind].1, channels, rate).into_iter().map(|n| stored(kind, n)).collect();
        fs::write(folder.join(format!("{name}.raw")), samples.concat())?;
        fs::write(folder.join(format!("{name}.au")), au(kind, channels, rate, &samples))?;
    }
    Ok(())
}

/// The samples of the files written here.
fn written(kind: usize, channels: u32, rate: u32) -> Vec<f64> {
    let bits = KINDS[kind].1;
    tone(bits, channels, rate).into_iter().take(WRITTEN * channels as usize).map(|n| value(bits, n)).collect()
}

fn write_files(folder: &Path) -> Result<()> {
    for (name, kind, channels, rate) in each() {
        let samples = written(kind, channels, rate);
        let mut file = vec![0; b::wav_file_length(kind as u8, channels as u8, samples.len())];
        let (number, length) = b::wav_write(0, kind as u8, channels as u8, rate, &samples, &mut file);
        assert_eq!((number, length), (0, file.len()), "{name}");
        fs::write(folder.join(format!("ours-{name}.wav")), file)?;
    }
    Ok(())
}

/// What one program's files showed.
#[derive(Default)]
struct Seen {
    plain: usize,
    wrapped: usize,
    samples: usize,
    /// Of the RF64 files.
    long: usize,
    listened: usize,
    /// Of the AIFF files.
    sounds: usize,
    counted: usize,
    /// Of the files that are written here.
    opened: usize,
    heard: usize,
    wrong: usize,
}

/// A channel's samples by the static libraries: as f64, and whether f32 and the whole numbers say the same.
fn channel(w: &b::WavePart, part: &[u8], channel: u8) -> (Vec<f64>, bool) {
    let n = part.len() / (usize::from(w.kind + 2) * usize::from(w.channels));
    let (mut wide, mut narrow, mut whole) = (vec![0.0; n], vec![0.0f32; n], vec![0; n]);
    let filled = b::wav_samples(w.kind, w.channels, channel, part, &mut wide) == 0
        && b::wav_samples_f32(w.kind, w.channels, channel, part, &mut narrow) == 0;
    let same = wide.iter().zip(&narrow).all(|(x, y)| x.to_bits() == f64::from(*y).to_bits());
    let counted = b::wav_whole(w.kind, w.channels, channel, part, &mut whole);
    let units = wide.iter().zip(&whole).all(|(x, n)| x.to_bits() == value(24, *n).to_bits());
    (wide, filled && same && if w.kind == 2 { counted == 1 } else { counted == 0 && units })
}

/// A program's samples, as patterns.
fn words(theirs: &[u8], high_first: bool) -> impl Iterator<Item = u64> + '_ {
    theirs.chunks_exact(8).map(move |eight| {
        let bytes: [u8; 8] = eight.try_into().expect("eight bytes");
        if high_first {
            u64::from_be_bytes(bytes)
        } else {
            u64::from_le_bytes(bytes)
        }
    })
}

/// What is wrong with a file, if something is.
fn compared(file: &[u8], theirs: &[u8], high_first: bool, of: (usize, u32, u32), seen: &mut Seen) -> Option<String> {
    let (kind, channels, rate) = of;
    let (mut number, mut w) = b::wav_read(file);
    let plain = number == 0;
    if number == 13 {
        (number, w) = b::wav_read_wrapped(file);
    }
    if number != 0 {
        return Some(format!("refused by {number}: {:?}", b::wav_told(file)));
    }
    if plain {
        seen.plain += 1
    } else {
        seen.wrapped += 1
    }
    if (usize::from(w.kind), u32::from(w.channels), w.rate) != of {
        return Some(format!("{w:?} for kind {kind}, {channels} channels, rate {rate}"));
    }
    let meant: Vec<u64> =
        tone(KINDS[kind].1, channels, rate).into_iter().map(|n| value(KINDS[kind].1, n).to_bits()).collect();
    if !words(theirs, high_first).eq(meant.iter().copied()) {
        return Some("the program reads another tone".into());
    }
    let part = &file[w.start..w.start + w.length];
    for c in 0..w.channels {
        let (ours, agree) = channel(&w, part, c);
        let meant = meant.iter().skip(c.into()).step_by(w.channels.into());
        if !agree || !ours.iter().map(|x| x.to_bits()).eq(meant.copied()) {
            return Some(format!("channel {c} is read as another tone"));
        }
        seen.samples += ours.len();
    }
    None
}

/// What is wrong with an RF64 file, if something is: its header is read apart from the samples, at once and by turns.
fn long(file: &[u8], of: (usize, u32, u32), seen: &mut Seen) -> Option<String> {
    let (kind, channels, rate) = of;
    if !file.starts_with(b"RF64") {
        return Some("it is not RF64".into());
    }
    let (mut first, mut asked) = (0, b::wav_needs(&[], file.len()));
    while asked > first {
        (first, asked) = (asked, b::wav_needs(&file[..asked], file.len()));
    }
    let (number, w) = b::wav_read_header_wrapped(&file[..first], file.len());
    if number != 0 {
        return Some(format!("refused by {number}"));
    }
    if (usize::from(w.kind), u32::from(w.channels), w.rate, w.start) != (kind, channels, rate, first) {
        return Some(format!("{w:?} for kind {kind}, {channels} channels, rate {rate}, start {first}"));
    }
    let (_, end, mut walk) = b::wav_begin(&file[..first], file.len());
    while walk.left >= 8 {
        let at = end - walk.left;
        b::wav_turn(&file[..first], end, &file[at..at + 8], &mut walk);
    }
    let fmt = &file[walk.format..walk.format + walk.format_size.min(40)];
    if b::wav_finish(&walk, fmt) != (0, w) {
        return Some("by turns it is read otherwise".into());
    }
    let bits = KINDS[kind].1;
    let meant: Vec<u64> = tone(bits, channels, rate).into_iter().map(|n| value(bits, n).to_bits()).collect();
    for c in 0..w.channels {
        let (ours, agree) = channel(&w, &file[w.start..w.start + w.length], c);
        let meant = meant.iter().skip(c.into()).step_by(w.channels.into());
        if !agree || !ours.iter().map(|x| x.to_bits()).eq(meant.copied()) {
            return Some(format!("channel {c} is read as another tone"));
        }
        seen.listened += ours.len();
    }
    seen.long += 1;
    None
}

/// What is wrong with an AIFF file, if something is.
fn sound(file: &[u8], of: (usize, u32, u32), seen: &mut Seen) -> Option<String> {
    let (kind, channels, rate) = of;
    let (number, w) = b::aiff_read(file);
    if number != 0 {
        return Some(format!("refused by {number}: {:?}", b::aiff_told(file)));
    }
    if (usize::from(w.kind), u32::from(w.channels), w.rate) != of {
        return Some(format!("{w:?} for kind {kind}, {channels} channels, rate {rate}"));
    }
    let bits = KINDS[kind].1;
    let (meant, part) = (tone(bits, channels, rate), &file[w.start..w.start + w.length]);
    let (mut wide, mut narrow, mut whole) = (vec![0.0; FRAMES], vec![0.0f32; FRAMES], vec![0; FRAMES]);
    for c in 0..w.channels {
        let numbers = [
            b::aiff_samples(w.kind, w.channels, c, part, &mut wide),
            b::aiff_samples_f32(w.kind, w.channels, c, part, &mut narrow),
            b::aiff_whole(w.kind, w.channels, c, part, &mut whole),
        ];
        let same = |k: usize, n: i32| {
            let x = value(bits, n);
            wide[k].to_bits() == x.to_bits() && narrow[k] == x as f32 && whole[k] == n << (24 - bits)
        };
        let meant = meant.iter().skip(c.into()).step_by(w.channels.into());
        if numbers != [0; 3] || !meant.enumerate().all(|(k, n)| same(k, *n)) {
            return Some(format!("channel {c} is read as another tone"));
        }
        seen.counted += FRAMES;
    }
    seen.sounds += 1;
    None
}

fn compare(folder: &Path) -> Result<i32> {
    let known: BTreeMap<String, (usize, u32, u32)> =
        each().map(|(name, kind, c, rate)| (name, (kind, c, rate))).collect();
    let lines = |name: &str| fs::read_to_string(folder.join(name));
    let (list, longs, sounds, opened) = (lines("list")?, lines("long")?, lines("sounds")?, lines("opened")?);
    let pair = |line: &str| {
        let (program, name) = line.split_once(' ').expect("a program and a tone");
        (program.to_string(), name.to_string())
    };
    let mut programs: BTreeMap<String, Seen> = BTreeMap::new();
    for (program, name) in list.lines().map(pair) {
        let read = |end: &str| fs::read(folder.join(format!("{program}-{name}.{end}")));
        let seen = programs.entry(program.clone()).or_default();
        let high_first = program == "sndfile-convert";
        if let Some(what) = compared(&read("wav")?, &read("theirs")?, high_first, known[&name], seen) {
            println!("{program} {name}: {what}");
            seen.wrong += 1;
        }
    }
    for (program, name) in longs.lines().map(pair) {
        let file = fs::read(folder.join(format!("{program}-{name}.rf64")))?;
        let seen = programs.entry(program.clone()).or_default();
        if let Some(what) = long(&file, known[&name], seen) {
            println!("{program} {name}.rf64: {what}");
            seen.wrong += 1;
        }
    }
    for (program, name) in sounds.lines().map(pair) {
        let file = fs::read(folder.join(format!("{program}-{name}.aiff")))?;
        let seen = programs.entry(program.clone()).or_default();
        if let Some(what) = sound(&file, known[&name], seen) {
            println!("{program} {name}.aiff: {what}");
            seen.wrong += 1;
        }
    }
    for (program, name) in opened.lines().map(pair) {
        let theirs = fs::read(folder.join(format!("{program}-ours-{name}.theirs")))?;
        let (kind, channels, rate) = known[&name];
        let meant = written(kind, channels, rate);
        let same = words(&theirs, program == "sndfile-convert").eq(meant.iter().map(|x| x.to_bits()));
        let seen = programs.entry(program.clone()).or_default();
        seen.opened += 1;
        seen.heard += meant.len();
        if !same {
            println!("{program} reads another tone from ours-{name}.wav");
            seen.wrong += 1;
        }
    }
    for (program, s) in &programs {
        println!("{program:<16} {:>3} plain, {:>3} wrapped, {:>7} samples", s.plain, s.wrapped, s.samples);
        println!("{:<16} {:>3} RF64, {:>7} samples", "", s.long, s.listened);
        println!("{:<16} {:>3} AIFF, {:>7} samples", "", s.sounds, s.counted);
        println!("{:<16} {:>3} written here, {:>7} samples; {} files differ", "", s.opened, s.heard, s.wrong);
    }
    Ok(i32::from(programs.is_empty() || programs.values().any(|s| s.wrong > 0)))
}

fn main() {
    std::process::exit(status())
}

/// What the program does, and the exit status that it ends with.
fn status() -> i32 {
    let word = |n: usize| std::env::args().nth(n).unwrap_or_default();
    let folder = word(2);
    let done = match &word(1)[..] {
        "tone" => write_tones(Path::new(&folder)).map(|()| 0),
        "write" => write_files(Path::new(&folder)).map(|()| 0),
        _ => compare(Path::new(&folder)),
    };
    done.unwrap_or_else(|e| {
        eprintln!("files: {e}");
        1
    })
}
