//! Files of the transfer desk: what is read from them, each refusal, and the stored list of small and damaged files.

use fugnadri::wav::{self, SampleKind, Told, Wave};
use fugnadri::Refusal;
use std::{fs, path::Path};

fn chunk(name: &[u8; 4], body: &[u8]) -> Vec<u8> {
    let mut all = name.to_vec();
    all.extend((body.len() as u32).to_le_bytes());
    all.extend(body);
    all.resize(all.len().next_multiple_of(2), 0);
    all
}

fn riff(chunks: &[Vec<u8>]) -> Vec<u8> {
    chunk(b"RIFF", &[b"WAVE".to_vec(), chunks.concat()].concat())
}

fn fmt(tag: u16, channels: u16, bits: u16) -> Vec<u8> {
    let block = channels * bits / 8;
    let rate = 44_100u32;
    let bytes = rate * u32::from(block);
    let words = [tag.to_le_bytes(), channels.to_le_bytes()].concat();
    let rates = [rate.to_le_bytes(), bytes.to_le_bytes()].concat();
    chunk(b"fmt ", &[words, rates, block.to_le_bytes().to_vec(), bits.to_le_bytes().to_vec()].concat())
}

#[test]
fn each_kind_is_read() {
    let file = riff(&[fmt(1, 2, 16), chunk(b"data", &[0, 0x80, 0xFF, 0x7F, 1, 0, 0, 0x40])]);
    let wave = wav::read(&file).unwrap();
    let part = &file[44..];
    assert_eq!(wave, Wave { kind: SampleKind::Pcm16, channels: 2, rate: 44_100, part });
    assert_eq!(wave.frames(), 2);
    assert_eq!(wave.channel(0).unwrap(), [-1.0, 1.0 / 32768.0]);
    assert_eq!(wave.channel_f32(1).unwrap(), [32767.0 / 32768.0, 0.5]);
    assert_eq!(wave.channel_whole(1).unwrap(), [32767 * 256, 1 << 22]);
    assert_eq!(wave.channel(2), Err(Refusal::Setting));

    let file = riff(&[chunk(b"LIST", b"odd"), fmt(1, 1, 24), chunk(b"data", &[0xFF, 0xFF, 0xFF, 0, 0, 0x80])]);
    let wave = wav::read(&file).unwrap();
    assert_eq!(wave.channel(0).unwrap(), [-1.0 / 8388608.0, -1.0]);
    assert_eq!(wave.channel_whole(0).unwrap(), [-1, -(1 << 23)]);

    let stored = [1.5f32, f32::NAN, -0.0].map(f32::to_le_bytes).concat();
    let file = riff(&[fmt(3, 1, 32), chunk(b"data", &stored)]);
    let wave = wav::read(&file).unwrap();
    let bits: Vec<u64> = wave.channel(0).unwrap().into_iter().map(f64::to_bits).collect();
    assert_eq!(bits, [1.5f64.to_bits(), 0x7FF8_0000_0000_0000, 1 << 63]);
    assert_eq!(wave.channel_whole(0), Err(Refusal::Setting));
}

#[test]
fn a_part_of_broken_frames() {
    let wave = Wave { kind: SampleKind::Pcm24, channels: 2, rate: 8000, part: &[0; 7] };
    assert_eq!(wave.channel(0), Err(Refusal::Length));
    assert_eq!(Wave { channels: 0, ..wave }.channel(0), Err(Refusal::Setting));
}

#[test]
fn each_refusal() {
    let data = chunk(b"data", &[1, 2, 3, 4]);
    let whole = riff(&[fmt(1, 1, 16), data.clone()]);
    assert_eq!(wav::read(&whole[..11]), Err(Refusal::NotWave));
    assert_eq!(wav::read(&whole[..whole.len() - 1]), Err(Refusal::Overrun));
    assert_eq!(wav::read(&riff(&[data.clone(), fmt(1, 1, 16)])), Err(Refusal::NoFormat));
    assert_eq!(wav::read(&riff(&[fmt(1, 1, 16)])), Err(Refusal::NoData));
    let eight = riff(&[fmt(1, 1, 8), data]);
    assert_eq!(wav::read(&eight), Err(Refusal::Kind));
    assert_eq!(wav::told(&eight), Told { size: 16, tag: 1, channels: 1, block: 1, bits: 8, samples: 4 });
}

/// The list's bytes are two hex digits each.
fn bytes(text: &str) -> Vec<u8> {
    (0..text.len()).step_by(2).map(|k| u8::from_str_radix(&text[k..k + 2], 16).unwrap()).collect()
}

fn numbers(found: Result<Wave, Refusal>, file: &[u8]) -> String {
    match found {
        Err(refusal) => format!("{} 0 0 0 0 0 ", refusal.number()),
        Ok(w) => {
            let start = w.part.as_ptr() as usize - file.as_ptr() as usize;
            format!("0 {} {} {} {start} {} ", w.kind as u8, w.channels, w.rate, w.part.len())
        }
    }
}

fn samples(wave: &Wave, channel: u8) -> String {
    let (wide, narrow) = (wave.channel(channel).unwrap(), wave.channel_f32(channel).unwrap());
    let refused = wave.kind == SampleKind::Float32;
    let whole = wave.channel_whole(channel).unwrap_or(vec![0; wide.len()]);
    let mut text = format!("0 0 {} ", u8::from(refused));
    for ((x, y), n) in wide.iter().zip(&narrow).zip(&whole) {
        text += &format!("{:016x} {:08x} {n:08x} ", x.to_bits(), y.to_bits());
    }
    text
}

#[test]
fn small_and_damaged_files() {
    let folder = Path::new(env!("CARGO_MANIFEST_DIR")).join("../crates/replay_files");
    let list = |name| fs::read_to_string(folder.join(name)).expect("the stored list");
    let (files, answers) = (list("stdin"), list("stdout"));
    let mut answers = answers.lines();
    for (k, line) in files.lines().enumerate() {
        let file = bytes(&line[5..]);
        let (plain, wrapped, told) = (wav::read(&file), wav::read_wrapped(&file), wav::told(&file));
        let Told { size, tag, channels, block, bits, samples: held } = told;
        let told = format!("{size} {tag} {channels} {block} {bits} {held} ");
        let said = numbers(plain, &file) + &numbers(wrapped, &file) + &told;
        assert_eq!(Some(&said[..]), answers.next(), "file {k}");
        for channel in 0..wrapped.map_or(0, |w| w.channels) {
            assert_eq!(Some(&samples(&wrapped.unwrap(), channel)[..]), answers.next(), "file {k}, channel {channel}");
        }
    }
    assert_eq!(answers.next(), None);
}
