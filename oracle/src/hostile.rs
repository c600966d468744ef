//! Hostile calls of every export: any bits in every number, state, ring, table and length.
//!
//! `hostile SEED CALLS FROM LIMIT AGAIN`: the calls number FROM on, each export in its turn. Nothing may crash, and none may take longer than LIMIT seconds of the
//! processor; after a refusal every byte that was lent is as it was, after an accepted call what it may not touch; no NaN is handed out but the one. A call's inputs come from the seed and its
//! number alone, so a fault names both behind the command AGAIN. `hostile list` writes the exports' names.

mod random;
mod hostile {
    pub mod aiff;
    pub mod aiff_files;
    pub mod bank;
    pub mod desks;
    pub mod draw;
    pub mod header_files;
    pub mod headers;
    pub mod memory;
    pub mod numbers;
    pub mod on_purpose;
    pub mod outside;
    pub mod oversampled;
    pub mod oversampled_readers;
    pub mod pool;
    pub mod readers;
    pub mod residual;
    pub mod rooms;
    pub mod shapes;
    pub mod stretches;
    pub mod stretches_f32;
    pub mod tables;
    pub mod tally;
    pub mod told;
    pub mod turn;
    pub mod value;
    pub mod wander;
    pub mod watch;
    pub mod wav;
    pub mod wav_files;
    pub mod wav_write;
}

use hostile::{aiff, bank, desks, headers, numbers, on_purpose, outside, oversampled, oversampled_readers, pool::Memory, readers, residual, rooms, stretches, stretches_f32, tables, tally::Tally, told, turn::Turn, wander, watch, wav, wav_write};
use boundary::Exports;
use std::time::{Duration, Instant};

/// An export, and one hostile call of it, which gives the number that it answered: 0 for none, and where there is none.
pub type Export = (&'static str, fn(&mut Turn) -> u8);
/// The same of an export that a kernel has, as each of `boundary::KERNELS` has it.
pub type OverKernel = (&'static str, Box<dyn Fn(&mut Turn) -> u8>);

pub fn over_kernel(kernel: &Exports, what: &str, call: impl Fn(&mut Turn) -> u8 + 'static) -> OverKernel {
    (format!("fugnadri_{}_{what}", kernel.name).leak(), Box::new(call))
}

fn exports() -> Vec<OverKernel> {
    let alone = |lists: &[&[Export]]| -> Vec<OverKernel> {
        lists.concat().into_iter().map(|(name, call)| (name, Box::new(call) as Box<dyn Fn(&mut Turn) -> u8>)).collect()
    };
    [
        alone(&[numbers::EXPORTS, outside::EXPORTS, wander::EXPORTS, readers::EXPORTS]),
        readers::over_kernels(),
        alone(&[tables::EXPORTS, bank::EXPORTS, rooms::EXPORTS, desks::EXPORTS]),
        told::over_kernels(),
        alone(&[told::EXPORTS, oversampled::EXPORTS, oversampled_readers::EXPORTS]),
        stretches::over_kernels(),
        alone(&[stretches::EXPORTS, stretches_f32::EXPORTS]),
        alone(&[wav::EXPORTS, headers::EXPORTS, aiff::EXPORTS, residual::EXPORTS, wav_write::EXPORTS]),
    ]
    .into_iter()
    .flatten()
    .collect()
}

fn main() {
    std::process::exit(status())
}

/// What the program does, and the exit status that it ends with.
fn status() -> i32 {
    let exports = exports();
    if std::env::args().nth(1).as_deref() == Some("list") {
        exports.iter().for_each(|(name, _)| println!("{name}"));
        return 0;
    }
    let word = |n: usize| -> u64 {
        let text = std::env::args().nth(n).expect("SEED CALLS FROM LIMIT");
        text.parse().expect("a number")
    };
    let (seed, calls, from, limit) = (word(1), word(2), word(3), word(4));
    let again = std::env::args().nth(5).unwrap_or_default();
    watch::start(seed, exports.iter().map(|(name, _)| *name).collect(), limit, again);
    if from == 0 {
        on_purpose::run();
    }
    let memory = Memory::new(seed);
    let mut tally = Tally::new(exports.len());
    let (start, mut told, mut sum) = (Instant::now(), Instant::now(), 0u64);
    for number in from..from + calls {
        let place = (number % exports.len() as u64) as usize;
        watch::at(number);
        let mut turn = Turn::new(&memory, seed, number, number / exports.len() as u64);
        let answer = (exports[place].1)(&mut turn);
        turn.saw(answer);
        sum = sum.wrapping_add(turn.sum);
        tally.count(place, answer);
        if number % 65536 == 0 && told.elapsed() >= Duration::from_secs(60) {
            told = Instant::now();
            eprintln!("{:.0} s: {} calls", start.elapsed().as_secs_f64(), number - from + 1);
        }
    }
    watch::stop();
    tally.report(&exports);
    println!("no fault: seed {seed}, {calls} calls from {from} on, sum of all answers {sum:016X}, {:.1} s", start.elapsed().as_secs_f64());
    tally.silent(&exports)
}
