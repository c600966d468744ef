//! Headers of files of any length: read at once, from a file that can be sought, and written; each refusal, and the stored
//! list of headers.

use fugnadri::wav::{self, Form, Header, SampleKind};
use fugnadri::Refusal;
use std::{
    fs,
    io::{self, Read, Seek, SeekFrom},
    path::Path,
};

const KINDS: [SampleKind; 3] = [SampleKind::Pcm16, SampleKind::Pcm24, SampleKind::Float32];

/// A file of so many bytes that has only its first ones, and zeros behind them.
struct Sparse<'a> {
    first: &'a [u8],
    length: u64,
    at: u64,
}

impl Read for Sparse<'_> {
    fn read(&mut self, out: &mut [u8]) -> io::Result<usize> {
        let n = out.len().min((self.length - self.at.min(self.length)) as usize);
        for (k, byte) in out[..n].iter_mut().enumerate() {
            *byte = self.first.get(self.at as usize + k).copied().unwrap_or(0);
        }
        self.at += n as u64;
        Ok(n)
    }
}

impl Seek for Sparse<'_> {
    fn seek(&mut self, to: SeekFrom) -> io::Result<u64> {
        self.at = match to {
            SeekFrom::Start(n) => n,
            SeekFrom::End(n) => self.length.wrapping_add_signed(n),
            SeekFrom::Current(n) => self.at.wrapping_add_signed(n),
        };
        Ok(self.at)
    }
}

fn opened(first: &[u8], length: usize) -> Result<Header, Refusal> {
    wav::open(&mut Sparse { first, length: length as u64, at: 0 }).unwrap()
}

#[test]
fn written_and_read_back() {
    for kind in KINDS {
        for channels in [1u8, 2] {
            let most = (1 << 40) / kind.width() / 2 * 2;
            for count in [0, 2, 2_147_483_628, 2_147_483_630, 1 << 32, most] {
                for form in [Form::Rf64, Form::Bw64] {
                    let head = wav::header(form, kind, channels, 96_000, count).unwrap();
                    let length = wav::file_length(kind, channels, count);
                    let meant = Header {
                        kind,
                        channels,
                        rate: 96_000,
                        start: head.len(),
                        length: count * kind.width(),
                    };
                    assert_eq!(wav::read_header(&head, length), Ok(meant));
                    assert_eq!(wav::read_header_wrapped(&head, length), Ok(meant));
                    assert_eq!(opened(&head, length), Ok(meant));
                    // apart from the samples: whatever stands behind
                    let longer = [&head[..], &[0xA5; 8][..8.min(length - head.len())]].concat();
                    assert_eq!(wav::read_header(&longer, length), Ok(meant));
                    for n in 0..head.len() {
                        assert_eq!(wav::read_header(&head[..n], length), Err(Refusal::Length));
                        assert!((n + 1..=head.len()).contains(&wav::needs(&head[..n], length)));
                    }
                    assert_eq!(wav::needs(&head, length), 0);
                    assert_eq!(wav::read_header(&head, head.len() - 1), Err(Refusal::Setting));
                    let riff = head.starts_with(b"RIFF");
                    assert_eq!(riff, length <= (1 << 32) + 7);
                    assert!(riff || head.starts_with(if form == Form::Rf64 { b"RF64" } else { b"BW64" }));
                }
            }
        }
    }
}

#[test]
fn a_file_that_fits_is_riff() {
    let samples = [0.5, -0.25, 0.125];
    for kind in KINDS {
        let file = wav::write(kind, 1, 48_000, &samples).unwrap();
        for form in [Form::Rf64, Form::Bw64] {
            let head = wav::header(form, kind, 1, 48_000, 3).unwrap();
            assert_eq!(file[..head.len()], head);
        }
        let start = wav::header_length(kind, 3);
        let wave = wav::read(&file).unwrap();
        let meant = Header { kind, channels: 1, rate: 48_000, start, length: wave.part.len() };
        assert_eq!(wav::read_header(&file, file.len()), Ok(meant));
    }
}

#[test]
fn each_refusal() {
    let (kind, count) = (SampleKind::Float32, 1 << 31);
    let head = wav::header(Form::Rf64, kind, 2, 48_000, count).unwrap();
    let length = wav::file_length(kind, 2, count);
    let changed = |at: usize, bytes: &[u8]| {
        let mut other = head.clone();
        other[at..at + bytes.len()].copy_from_slice(bytes);
        wav::read_header(&other, length)
    };
    assert_eq!(changed(0, b"RF65"), Err(Refusal::NotWave));
    assert_eq!(changed(0, b"BW64"), wav::read_header(&head, length));
    assert_eq!(changed(0, b"RIFF"), Err(Refusal::Overrun));
    assert_eq!(changed(12, b"JUNK"), Err(Refusal::NoSizes));
    assert_eq!(changed(16, &[27, 0, 0, 0]), Err(Refusal::NoSizes));
    assert_eq!(changed(28, &((1u64 << 40) + 1).to_le_bytes()), Err(Refusal::LargeSize));
    assert_eq!(changed(20, &3u64.to_le_bytes()), Err(Refusal::NotWave));
    assert_eq!(changed(20, &u64::MAX.to_le_bytes()), Err(Refusal::Overrun));
    assert_eq!(changed(48, b"fmt_"), Err(Refusal::NoFormat));
    // an unknown chunk of FFFFFFFF bytes, behind which the next head is asked for
    assert_eq!(changed(86, b"dat_"), Err(Refusal::Length));
    assert_eq!(changed(58, &[3, 0]), Err(Refusal::Kind));
    assert_eq!(wav::header(Form::Rf64, kind, 2, 48_000, 3), Err(Refusal::Setting));
    assert_eq!(wav::header(Form::Rf64, kind, 2, 7999, 2), Err(Refusal::Setting));
    assert_eq!(wav::header(Form::Rf64, kind, 1, 48_000, (1 << 38) + 1), Err(Refusal::LargeSize));
    assert_eq!(wav::header(Form::Rf64, kind, 3, 48_000, (1 << 38) + 1), Err(Refusal::LargeSize));
    assert_eq!(wav::header(Form::Rf64, kind, 3, 48_000, 3), Err(Refusal::Kind));
}

/// The list's bytes are two hex digits each.
fn bytes(text: &str) -> Vec<u8> {
    (0..text.len()).step_by(2).map(|k| u8::from_str_radix(&text[k..k + 2], 16).unwrap()).collect()
}

fn numbers(found: Result<Header, Refusal>) -> String {
    match found {
        Err(refusal) => format!("{} 0 0 0 0 0 ", refusal.number()),
        Ok(h) => format!("0 {} {} {} {} {} ", h.kind as u8, h.channels, h.rate, h.start, h.length),
    }
}

#[test]
fn headers_whole_and_damaged() {
    let folder = Path::new(env!("CARGO_MANIFEST_DIR")).join("../crates/replay_headers");
    let list = |name| fs::read_to_string(folder.join(name)).expect("the stored list");
    let (headers, answers) = (list("stdin"), list("stdout"));
    let mut answers = answers.lines();
    for (k, line) in headers.lines().enumerate() {
        let length = usize::from_str_radix(&line[..16], 16).unwrap();
        let first = bytes(&line[22..]);
        let (plain, wrapped) = (wav::read_header(&first, length), wav::read_header_wrapped(&first, length));
        let more = matches!(wrapped, Err(Refusal::Setting | Refusal::Length));
        let turns = if more { "0 0 0 0 0 0 ".into() } else { numbers(opened(&first, length)) };
        let said = format!("{} ", wav::needs(&first, length)) + &numbers(plain) + &numbers(wrapped) + &turns;
        assert_eq!(Some(&said[..]), answers.next(), "header {k}");
    }
    assert_eq!(answers.next(), None);
}
