//! The workloads beside the Rust: `bench time PASSES`, and for a counter of instructions
//! `bench count NAME rust|port PASSES`; `bench list` names them.
//!
//! Both sides answer the same inputs in one process, in turn; a side's time is its best pass. The
//! answers are compared, so that a fast wrong loop is seen.

#[path = "../../oracle/src/full.rs"]
mod full;
#[path = "../../oracle/src/random.rs"]
mod random;
mod workloads {
    pub mod desks;
    pub mod elementary;
    pub mod floor;
    pub mod fused32;
    pub mod fused64;
    pub mod modulation;
    pub mod narrow;
    pub mod oversampled;
    pub mod quality;
    pub mod readers;
    pub mod residual;
    pub mod sinc;
    pub mod square_root;
    pub mod stretches;
    pub mod stretches_f32;
    pub mod told;
    pub mod wav;
    pub mod wav_headers;
    pub mod wav_store;
}

use std::hint::black_box;
use std::time::Instant;

/// Each file of workloads/ names its own.
fn workloads() -> Vec<(&'static str, fn() -> Workload)> {
    use workloads::*;
    [
        narrow::WORKLOADS,
        fused32::WORKLOADS,
        fused64::WORKLOADS,
        square_root::WORKLOADS,
        floor::WORKLOADS,
        elementary::WORKLOADS,
        modulation::WORKLOADS,
        &readers::workloads(),
        told::WORKLOADS,
        &readers::stretches(),
        stretches::WORKLOADS,
        stretches_f32::WORKLOADS,
        sinc::WORKLOADS,
        quality::WORKLOADS,
        desks::WORKLOADS,
        oversampled::WORKLOADS,
        wav::WORKLOADS,
        residual::WORKLOADS,
        wav_store::WORKLOADS,
        wav_headers::WORKLOADS,
    ]
    .concat()
}

pub struct Workload {
    /// How many answers one pass gives.
    pub answers: usize,
    pub rust: Side,
    pub port: Side,
}

/// One pass: every answer's pattern.
pub type Side = Box<dyn FnMut(&mut [u64])>;

/// A pass that calls `answer` on each input by itself.
pub fn one_by_one<A: Copy + 'static>(inputs: &[A], answer: impl Fn(A) -> u64 + 'static) -> Side {
    let inputs = inputs.to_vec();
    Box::new(move |answers| {
        for (to, input) in answers.iter_mut().zip(&inputs) {
            *to = answer(*input);
        }
    })
}

fn main() {
    std::process::exit(status())
}

/// What the program does, and the exit status that it ends with.
fn status() -> i32 {
    let words: Vec<String> = std::env::args().skip(1).collect();
    match words.iter().map(String::as_str).collect::<Vec<_>>()[..] {
        ["list"] => workloads().iter().for_each(|(name, _)| println!("{name}")),
        ["time", passes] => return time(passes.parse().expect("PASSES")),
        ["count", name, side, passes] => count(name, side, passes.parse().expect("PASSES")),
        _ => panic!("bench time PASSES | count NAME rust|port PASSES | list"),
    }
    0
}

/// A line for each workload: its name, nanoseconds an answer for the Rust and for the port, and how many answers differ.
fn time(passes: u32) -> i32 {
    let mut wrong = 0;
    for (name, workload) in workloads() {
        let Workload { answers, mut rust, mut port } = workload();
        let (mut theirs, mut ours) = (vec![0; answers], vec![1; answers]);
        let (mut best_rust, mut best_port) = (f64::MAX, f64::MAX);
        for _ in 0..passes {
            best_rust = best_rust.min(seconds(&mut rust, &mut theirs));
            best_port = best_port.min(seconds(&mut port, &mut ours));
        }
        let differ = theirs.iter().zip(&ours).filter(|(a, b)| a != b).count();
        let each = 1e9 / answers as f64;
        println!("{name} {:.2} {:.2} {differ}", best_rust * each, best_port * each);
        wrong += differ;
    }
    (wrong > 0) as i32
}

fn seconds(side: &mut Side, answers: &mut [u64]) -> f64 {
    let start = Instant::now();
    side(black_box(answers));
    start.elapsed().as_secs_f64()
}

/// Passes of one side alone. The number of answers in a pass is printed.
fn count(name: &str, side: &str, passes: u32) {
    let (_, workload) = workloads().into_iter().find(|(n, _)| *n == name).expect("a workload");
    let found = workload();
    let mut pass = if side == "rust" { found.rust } else { found.port };
    let mut answers = vec![0; found.answers];
    for _ in 0..passes {
        pass(black_box(&mut answers));
    }
    println!("{}", found.answers);
}
