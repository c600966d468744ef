//! The original's VariableDelay, over every kernel, and VariableDelayF32, replayed bit for bit: refused samples and delays answer 0.0 and do not advance.

mod stored;

use fugnadri::{
    CubicFarrow, Farrow8, Kernel, Lagrange, VariableDelay, VariableDelayF32, WindowedSinc, WindowedSincF32,
};
use stored::{answers, calls, pattern, pattern_f32};

trait Reader {
    fn process(&mut self, input: f64, delay: f64) -> f64;
    fn reset(&mut self);
}

impl<K: Kernel> Reader for VariableDelay<K> {
    fn process(&mut self, input: f64, delay: f64) -> f64 {
        self.process_sample(input, delay)
    }
    fn reset(&mut self) {
        self.reset();
    }
}

fn open(kernel: u64, maximum: usize, margin: usize) -> Box<dyn Reader> {
    match kernel {
        0 => Box::new(VariableDelay::new(maximum, margin, CubicFarrow)),
        1 => Box::new(VariableDelay::new(maximum, margin, Farrow8)),
        2 => Box::new(VariableDelay::new(maximum, margin, Lagrange::<2>)),
        4 => Box::new(VariableDelay::new(maximum, margin, Lagrange::<4>)),
        6 => Box::new(VariableDelay::new(maximum, margin, Lagrange::<6>)),
        8 => Box::new(VariableDelay::new(maximum, margin, Lagrange::<8>)),
        10 => Box::new(VariableDelay::new(maximum, margin, Lagrange::<10>)),
        12 => Box::new(VariableDelay::new(maximum, margin, Lagrange::<12>)),
        14 => Box::new(VariableDelay::new(maximum, margin, Lagrange::<14>)),
        16 => Box::new(VariableDelay::new(maximum, margin, Lagrange::<16>)),
        other => panic!("the list knows no kernel {other}"),
    }
}

#[test]
fn constant_kernels() {
    let (mut reader, mut compared) = (open(0, 0, 0), 0);
    for (n, (line, answer)) in calls("replay_delays").into_iter().zip(answers("replay_delays")).enumerate() {
        let [a, b, c] = line.words;
        match line.letter {
            b'o' => reader = open(a, b as usize, c as usize),
            b'r' => reader.reset(),
            _ => {
                assert_eq!(pattern(reader.process(f64::from_bits(a), f64::from_bits(b))), answer, "line {}", n + 1);
                compared += 1;
            }
        }
    }
    assert_eq!(compared, 5760);
}

/// How the list's tables are made: the letter of the line, and its words.
#[derive(Clone, Copy)]
struct Settings {
    letter: u8,
    shape: [u64; 3],
    words: [u64; 3],
}

macro_rules! made {
    ($kernel:ident, $settings:expr) => {{
        let Settings { letter, shape, words } = $settings;
        let (taps, phases, beta) = (shape[0] as usize, shape[1] as usize, f64::from_bits(shape[2]));
        let [a, b] = [words[0], words[1]].map(f64::from_bits);
        if letter == b'n' {
            $kernel::new(taps, phases, a, beta)
        } else {
            $kernel::for_max_rate(taps, phases, a, b, beta)
        }
    }};
}

#[test]
fn tables() {
    let mut answers = answers("replay_sinc").into_iter();
    let mut settings = Settings { letter: b'n', shape: [4, 2, 0], words: [1f64.to_bits(), 0, 0] };
    // a table that the list makes element by element is none of the original's constructors'
    let mut by_hand = false;
    let mut double = VariableDelay::new(0, 0, made!(WindowedSinc, settings));
    let mut single = VariableDelayF32::new(0, 0, made!(WindowedSincF32, settings));
    let mut compared = 0;
    for line in calls("replay_sinc") {
        let [a, b, _] = line.words;
        let answer = answers.next().expect("an answer for each line");
        match line.letter {
            b's' => settings.shape = line.words,
            b'n' | b'm' => {
                if answer != 0xFFFF_FFFF_FFFF_FF01 {
                    (settings.letter, settings.words, by_hand) = (line.letter, line.words, false);
                    assert_eq!(made!(WindowedSinc, settings).cutoff().to_bits(), answer);
                }
                let [taps, phases, _] = settings.shape;
                answers.by_ref().take(((phases + 1) * taps) as usize).for_each(drop);
            }
            b'e' => by_hand = true,
            _ if by_hand => {}
            b'o' => double = VariableDelay::new(a as usize, b as usize, made!(WindowedSinc, settings)),
            b'O' => single = VariableDelayF32::new(a as usize, b as usize, made!(WindowedSincF32, settings)),
            b'r' => double.reset(),
            b'R' => single.reset(),
            letter => {
                let delay = f64::from_bits(b);
                let found = if letter == b'p' {
                    pattern(double.process_sample(f64::from_bits(a), delay))
                } else {
                    pattern_f32(single.process_sample(f32::from_bits(a as u32), delay))
                };
                assert_eq!(found, answer, "{} {a:016X} {b:016X}", letter as char);
                compared += 1;
            }
        }
    }
    assert!(answers.next().is_none());
    assert_eq!(compared, 1808);
}
