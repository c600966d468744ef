//! Files written: read back, at the ends of the ranges, at ties, in buffers of other lengths, each refusal, and the stored
//! list of files and headers to be written.

use fugnadri::wav::{self, Form, SampleKind};
use fugnadri::Refusal;
use std::{fs, path::Path};

const KINDS: [SampleKind; 3] = [SampleKind::Pcm16, SampleKind::Pcm24, SampleKind::Float32];

/// A whole number of units of 2^-n.
fn units(k: i32, n: i32) -> f64 {
    f64::from(k) * 2f64.powi(-n)
}

/// One sample written as a file of one channel: its stored bytes.
fn stored(kind: SampleKind, x: f64) -> Result<Vec<u8>, Refusal> {
    let file = wav::write(kind, 1, 48_000, &[x])?;
    Ok(wav::read(&file)?.part.to_vec())
}

#[test]
fn written_and_read_back() {
    // Multiples of 2^-15 from -1 to just below 1, which every kind holds.
    let samples: Vec<f64> = (-32_768..32_768).step_by(13).map(|k| units(k, 15)).collect();
    let narrow: Vec<f32> = samples.iter().map(|x| *x as f32).collect();
    for kind in KINDS {
        for channels in [1, 2] {
            let whole = samples.len() / 2 * 2;
            let file = wav::write(kind, channels, 96_000, &samples[..whole]).unwrap();
            assert_eq!(file.len(), wav::file_length(kind, channels, whole));
            assert_eq!(wav::write_f32(kind, channels, 96_000, &narrow[..whole]).unwrap(), file);
            let wave = wav::read(&file).unwrap();
            assert_eq!((wave.kind, wave.channels, wave.rate), (kind, channels, 96_000));
            assert_eq!(wav::read_wrapped(&file).unwrap(), wave);
            for c in 0..channels {
                let meant: Vec<f64> =
                    samples[..whole].iter().skip(c.into()).step_by(channels.into()).copied().collect();
                assert_eq!(wave.channel(c).unwrap(), meant);
            }
        }
    }
}

#[test]
fn ends_and_ties() {
    use SampleKind::*;
    assert_eq!(stored(Pcm16, -1.0).unwrap(), [0, 0x80]);
    assert_eq!(stored(Pcm16, 1.0), Err(Refusal::Sample));
    assert_eq!(stored(Pcm24, -1.0).unwrap(), [0, 0, 0x80]);
    assert_eq!(stored(Pcm24, 1.0), Err(Refusal::Sample));
    assert_eq!(stored(Float32, 1.0).unwrap(), 1f32.to_le_bytes());
    // halfway above the greatest: to the even number, which does not fit; below the least: to the least, which does
    assert_eq!(stored(Pcm16, 1.0 - units(1, 16)), Err(Refusal::Sample));
    assert_eq!(stored(Pcm16, (1.0 - units(1, 16)).next_down()).unwrap(), [0xFF, 0x7F]);
    assert_eq!(stored(Pcm16, -1.0 - units(1, 16)).unwrap(), [0, 0x80]);
    assert_eq!(stored(Pcm16, (-1.0 - units(1, 16)).next_down()), Err(Refusal::Sample));
    assert_eq!(stored(Pcm24, 1.0 - units(1, 24)), Err(Refusal::Sample));
    assert_eq!(stored(Pcm24, -1.0 - units(1, 24)).unwrap(), [0, 0, 0x80]);
    // halfway between two: to the even one
    for (k, even) in [(1, 0), (3, 2), (-1, 0), (-3, -2), (5, 2), (-5, -2)] {
        assert_eq!(stored(Pcm16, units(k, 16)).unwrap(), i16::to_le_bytes(even));
        assert_eq!(stored(Pcm24, units(k, 24)).unwrap(), i32::from(even).to_le_bytes()[..3]);
    }
    // not by way of an f32, which would make a tie of it
    assert_eq!(stored(Pcm16, units(1, 16).next_up()).unwrap(), [1, 0]);
    assert_eq!(stored(Pcm16, -0.0).unwrap(), [0, 0]);
    assert_eq!(stored(Float32, -0.0).unwrap(), [0, 0, 0, 0x80]);
    assert_eq!(stored(Float32, 1e-45).unwrap(), [1, 0, 0, 0]);
    // the greatest f32, and halfway to what would follow it
    let (greatest, above) = (f64::from(f32::MAX), f64::from(f32::MAX) + 2f64.powi(103));
    assert_eq!(stored(Float32, above.next_down()).unwrap(), f32::MAX.to_le_bytes());
    assert_eq!(stored(Float32, -greatest).unwrap(), f32::MIN.to_le_bytes());
    for x in [above, 2f64.powi(1023), f64::INFINITY, f64::NEG_INFINITY, f64::NAN] {
        KINDS.iter().for_each(|kind| assert_eq!(stored(*kind, x), Err(Refusal::Sample)));
    }
    assert_eq!(wav::write_f32(Float32, 1, 8000, &[0.0, f32::NAN]), Err(Refusal::Sample));
}

#[test]
fn odd_data_has_a_pad_byte() {
    let file = wav::write(SampleKind::Pcm24, 1, 44_100, &[units(-1, 23)]).unwrap();
    assert_eq!(file.len(), 48);
    assert_eq!(file[40..], [3, 0, 0, 0, 0xFF, 0xFF, 0xFF, 0]);
    assert_eq!(file[4..8], [40, 0, 0, 0]);
    assert_eq!(wav::write(SampleKind::Pcm16, 1, 44_100, &[]).unwrap().len(), 44);
    assert_eq!(wav::write(SampleKind::Float32, 2, 44_100, &[]).unwrap().len(), 58);
}

#[test]
fn buffers_of_other_lengths() {
    let samples = [0.5, -0.5, 0.25];
    for kind in KINDS {
        let file = wav::write(kind, 1, 44_100, &samples).unwrap();
        let right = file.len();
        let into = |room: usize, samples: &[f64]| {
            let mut out = vec![0xA5; room];
            (wav::write_into(kind, 1, 44_100, samples, &mut out), out)
        };
        assert_eq!(into(right, &samples), (Ok(right), file.clone()));
        assert_eq!(into(right - 1, &samples), (Err(Refusal::Room), vec![0xA5; right - 1]));
        assert_eq!(into(0, &samples), (Err(Refusal::Room), vec![]));
        let (done, out) = into(right + 100, &samples);
        assert_eq!((done, &out[..right], &out[right..]), (Ok(right), &file[..], &[0xA5; 100][..]));
        assert_eq!(wav::read(&out).unwrap(), wav::read(&file).unwrap());
        // two of them due: 14 is given
        assert_eq!(into(right - 1, &[0.5, f64::NAN, 0.0]).0, Err(Refusal::Room));
        assert_eq!(into(right, &[0.5, f64::NAN, 0.0]), (Err(Refusal::Sample), vec![0xA5; right]));
    }
}

#[test]
fn settings_and_kinds() {
    let write = |channels, rate, samples: &[f64]| wav::write(SampleKind::Pcm16, channels, rate, samples);
    for rate in [0, 7999, 768_001, u32::MAX] {
        assert_eq!(write(1, rate, &[0.0]), Err(Refusal::Setting));
        assert_eq!(write(3, rate, &[f64::NAN]), Err(Refusal::Setting));
    }
    assert!(write(1, 8000, &[0.0]).is_ok() && write(1, 768_000, &[0.0]).is_ok());
    assert_eq!(write(2, 8000, &[0.0; 3]), Err(Refusal::Setting));
    for channels in [0, 3, 255] {
        assert_eq!(write(channels, 8000, &[f64::NAN; 3]), Err(Refusal::Kind));
        assert_eq!(wav::file_length(SampleKind::Pcm16, channels, 3), 0);
    }
    // the last count that 32 bits hold, and the last of all
    assert_eq!(wav::file_length(SampleKind::Pcm16, 1, 2_147_483_629), 4_294_967_302);
    assert_eq!(wav::file_length(SampleKind::Pcm16, 1, 2_147_483_630), 4_294_967_340);
    assert_eq!(wav::file_length(SampleKind::Pcm16, 1, 1 << 39), (1 << 40) + 80);
    assert_eq!(wav::file_length(SampleKind::Pcm16, 1, (1 << 39) + 1), 0);
    assert_eq!(wav::file_length(SampleKind::Float32, 2, usize::MAX), 0);
}

#[test]
fn a_refusal_says_what_to_do() {
    assert_eq!((Refusal::Room.number(), Refusal::Sample.number()), (14, 15));
    assert!(
        Refusal::Room.to_string().starts_with("refused by 14: ") && Refusal::Room.to_string().contains("file_length")
    );
    assert!(Refusal::Sample.to_string().contains("make the samples quieter"));
}

#[test]
fn files_to_be_written() {
    let folder = Path::new(env!("CARGO_MANIFEST_DIR")).join("../crates/replay_written");
    let list = |name| fs::read_to_string(folder.join(name)).expect("the stored list");
    let (calls, answers) = (list("stdin"), list("stdout"));
    assert_eq!(calls.lines().count(), answers.lines().count());
    for (k, (call, answer)) in calls.lines().zip(answers.lines()).enumerate() {
        let words: Vec<u64> = call.split_whitespace().map(|word| u64::from_str_radix(word, 16).unwrap()).collect();
        let (kind, channels, rate) = (KINDS[words[0] as usize], words[1] as u8, words[2] as u32);
        let mut out = vec![0xA5; words[3] as usize];
        let (samples, count) = (&words[6..], words[5] as usize);
        if words[4] > 1 {
            let form = [Form::Rf64, Form::Bw64][words[4] as usize - 2];
            let done = wav::header_into(form, kind, channels, rate, count, &mut out);
            let (number, length) = (done.map_or_else(|no| no.number(), |_| 0), wav::header_length(kind, count));
            assert!(done.map_or(true, |n| n == length));
            assert_eq!(said(number, length, wav::file_length(kind, channels, count), &out), answer, "call {k}");
            continue;
        }
        let done = if words[4] == 1 {
            let samples: Vec<f32> = samples.iter().map(|word| f32::from_bits(*word as u32)).collect();
            wav::write_into_f32(kind, channels, rate, &samples, &mut out)
        } else {
            let samples: Vec<f64> = samples.iter().map(|word| f64::from_bits(*word)).collect();
            wav::write_into(kind, channels, rate, &samples, &mut out)
        };
        let (number, length) = done.map_or_else(|refusal| (refusal.number(), 0), |length| (0, length));
        assert_eq!(said(number, length, wav::file_length(kind, channels, count), &out), answer, "call {k}");
    }
}

fn said(number: u8, length: usize, told: usize, out: &[u8]) -> String {
    let bytes: String = out.iter().map(|byte| format!("{byte:02x}")).collect();
    format!("{number} {length} {told} {bytes}")
}
