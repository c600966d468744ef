//! Files of the lender: what is read from them, each refusal, and the stored list of small and damaged files.

use fugnadri::aiff::{self, Sound, Told};
use fugnadri::wav::SampleKind;
use fugnadri::Refusal;
use std::{fs, path::Path};

fn chunk(name: &[u8; 4], body: &[u8]) -> Vec<u8> {
    let mut all = name.to_vec();
    all.extend((body.len() as u32).to_be_bytes());
    all.extend(body);
    all.resize(all.len().next_multiple_of(2), 0);
    all
}

fn form(chunks: &[Vec<u8>]) -> Vec<u8> {
    chunk(b"FORM", &[b"AIFF".to_vec(), chunks.concat()].concat())
}

/// 44100 as an 80-bit extended number.
const RATE: [u8; 10] = [0x40, 0x0E, 0xAC, 0x44, 0, 0, 0, 0, 0, 0];

fn comm(channels: u16, frames: u32, bits: u16, rate: [u8; 10]) -> Vec<u8> {
    let words = [channels.to_be_bytes().to_vec(), frames.to_be_bytes().to_vec(), bits.to_be_bytes().to_vec()];
    chunk(b"COMM", &[words.concat(), rate.to_vec()].concat())
}

fn ssnd(offset: u32, bytes: &[u8]) -> Vec<u8> {
    chunk(b"SSND", &[offset.to_be_bytes().to_vec(), vec![0; 4], bytes.to_vec()].concat())
}

#[test]
fn each_kind_is_read() {
    let file = form(&[comm(2, 2, 16, RATE), ssnd(0, &[0x80, 0, 0x7F, 0xFF, 0, 1, 0x40, 0])]);
    let sound = aiff::read(&file).unwrap();
    let part = &file[54..];
    assert_eq!(sound, Sound { kind: SampleKind::Pcm16, channels: 2, rate: 44_100, part });
    assert_eq!(sound.frames(), 2);
    assert_eq!(sound.channel(0).unwrap(), [-1.0, 1.0 / 32768.0]);
    assert_eq!(sound.channel_f32(1).unwrap(), [32767.0 / 32768.0, 0.5]);
    assert_eq!(sound.channel_whole(1).unwrap(), [32767 * 256, 1 << 22]);
    assert_eq!(sound.channel(2), Err(Refusal::Setting));
    assert_eq!(Sound { kind: SampleKind::Float32, ..sound }.channel(0), Err(Refusal::Setting));
    assert_eq!(Sound { part: &part[1..], ..sound }.channel(0), Err(Refusal::Length));

    // SSND first, an unknown chunk between them, an odd offset
    let bytes = [9, 0xFF, 0xFF, 0xFF, 0x80, 0, 0];
    let file = form(&[ssnd(1, &bytes), chunk(b"NAME", b"odd"), comm(1, 2, 24, RATE)]);
    let sound = aiff::read(&file).unwrap();
    assert_eq!(sound.channel(0).unwrap(), [-1.0 / 8388608.0, -1.0]);
    assert_eq!(sound.channel_whole(0).unwrap(), [-1, -(1 << 23)]);
}

#[test]
fn each_refusal() {
    let (good, data) = (comm(1, 2, 16, RATE), ssnd(0, &[1, 2, 3, 4]));
    let whole = form(&[good.clone(), data.clone()]);
    assert_eq!(aiff::read(&whole[..11]), Err(Refusal::NotAiff));
    let mut packed = whole.clone();
    packed[11] = b'C';
    assert_eq!(aiff::read(&packed), Err(Refusal::NotAiff));
    assert_eq!(aiff::read(&whole[..whole.len() - 1]), Err(Refusal::Overrun));
    assert_eq!(aiff::read(&form(&[data.clone()])), Err(Refusal::Sound));
    assert_eq!(aiff::read(&form(&[good.clone(), ssnd(5, &[1, 2, 3, 4])])), Err(Refusal::Sound));
    assert_eq!(aiff::read(&form(&[comm(1, 3, 16, RATE), data.clone()])), Err(Refusal::Sound));
    assert_eq!(aiff::read(&form(&[comm(1, 3, 16, [0; 10]), data.clone()])), Err(Refusal::Sound));
    assert_eq!(aiff::read(&form(&[comm(1, 2, 16, [0; 10]), data.clone()])), Err(Refusal::SoundRate));
    let eight = form(&[comm(1, 99, 8, RATE), data]);
    assert_eq!(aiff::read(&eight), Err(Refusal::Kind));
    let (exponent, digits) = (0x400E, 0xAC44 << 48);
    let told = Told { comm: 18, channels: 1, frames: 99, bits: 8, exponent, digits, ssnd: 12, offset: 0 };
    assert_eq!(aiff::told(&eight), told);
}

/// The list's bytes are two hex digits each.
fn bytes(text: &str) -> Vec<u8> {
    (0..text.len()).step_by(2).map(|k| u8::from_str_radix(&text[k..k + 2], 16).unwrap()).collect()
}

fn numbers(found: Result<Sound, Refusal>, file: &[u8]) -> String {
    match found {
        Err(refusal) => format!("{} 0 0 0 0 0 ", refusal.number()),
        Ok(s) => {
            let start = s.part.as_ptr() as usize - file.as_ptr() as usize;
            format!("0 {} {} {} {start} {} ", s.kind as u8, s.channels, s.rate, s.part.len())
        }
    }
}

fn samples(sound: &Sound, channel: u8) -> String {
    let (wide, narrow) = (sound.channel(channel).unwrap(), sound.channel_f32(channel).unwrap());
    let mut text = String::from("0 0 0 ");
    for ((x, y), n) in wide.iter().zip(&narrow).zip(&sound.channel_whole(channel).unwrap()) {
        text += &format!("{:016x} {:08x} {n:08x} ", x.to_bits(), y.to_bits());
    }
    text
}

#[test]
fn small_and_damaged_files() {
    let folder = Path::new(env!("CARGO_MANIFEST_DIR")).join("../crates/replay_aiff");
    let list = |name| fs::read_to_string(folder.join(name)).expect("the stored list");
    let (files, answers) = (list("stdin"), list("stdout"));
    let mut answers = answers.lines();
    for (k, line) in files.lines().enumerate() {
        let file = bytes(&line[5..]);
        let (found, told) = (aiff::read(&file), aiff::told(&file));
        let Told { comm, channels, frames, bits, exponent, digits, ssnd, offset } = told;
        let told = format!("{comm} {channels} {frames} {bits} {exponent} {digits} {ssnd} {offset} ");
        let read = numbers(found, &file);
        // the second six numbers are the same file's by turns, which the crate does not offer
        assert_eq!(Some(&(read.clone() + &read + &told)[..]), answers.next(), "file {k}");
        for channel in 0..found.map_or(0, |s| s.channels) {
            assert_eq!(Some(&samples(&found.unwrap(), channel)[..]), answers.next(), "file {k}, channel {channel}");
        }
    }
    assert_eq!(answers.next(), None);
}
