//! The stored lists of the original's answers (crates/replay_*, docs/ORACLE.md): a line is a letter and words of hex digits.

#![allow(dead_code)] // each test uses a part

use std::{fs, path::Path};

pub struct Line {
    pub letter: u8,
    /// One bit of the answer was changed on purpose.
    pub star: bool,
    pub words: [u64; 3],
}

fn file(list: &str, name: &str) -> String {
    let path = Path::new(env!("CARGO_MANIFEST_DIR")).join("../crates").join(list).join(name);
    fs::read_to_string(&path).unwrap_or_else(|e| panic!("{}: {e}", path.display()))
}

fn word(text: &str) -> u64 {
    u64::from_str_radix(text, 16).expect("sixteen hex digits")
}

pub fn calls(list: &str) -> Vec<Line> {
    file(list, "stdin")
        .lines()
        .map(|line| {
            let mut words = line[2..].split(' ').map(word);
            let words = [(); 3].map(|()| words.next().expect("three words"));
            Line { letter: line.as_bytes()[0], star: line.as_bytes()[1] == b'*', words }
        })
        .collect()
}

/// The first word of each answer.
pub fn answers(list: &str) -> Vec<u64> {
    file(list, "stdout").lines().map(|line| word(&line[..16])).collect()
}

/// An answer as the lists write it: one pattern for every NaN.
pub fn pattern(x: f64) -> u64 {
    if x.is_nan() {
        0x7FF8_0000_0000_0000
    } else {
        x.to_bits()
    }
}

pub fn pattern_f32(x: f32) -> u64 {
    if x.is_nan() {
        0x7FC0_0000
    } else {
        x.to_bits().into()
    }
}
