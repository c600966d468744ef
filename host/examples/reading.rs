//! Reads a few samples through three readers and meets refusals on purpose. examples/reading.c does the same in C; both print examples/reading.txt.
//!
//! A line is the reader, the number of the call from 0, and the answer's pattern in hex, or `refused` and the number.

use fugnadri::strict::modulation::{ModulationEngine, ModulationParams};
use fugnadri::strict::{
    CubicFarrow, QualityMode, QualityVariableDelayF32, Refusal, SincBankF32, VariableDelay, VariableDelayF32,
    WindowedSincF32,
};
use std::{error::Error, sync::Arc};

fn main() -> Result<(), Box<dyn Error>> {
    // the cubic reader with a ring of 8, delay 1.5; the fourth call's delay is below zero, and the fifth goes on as if that had not been
    let mut cubic = VariableDelay::new(0, 0, CubicFarrow)?;
    let calls = [(1.0, 1.5), (2.0, 1.5), (3.0, 1.5), (4.0, -1.0), (4.0, 1.5), (f64::NAN, 1.5)];
    for (n, (input, delay)) in calls.into_iter().enumerate() {
        say("cubic", n, cubic.process_sample(input, delay).map(|x| format!("{:016X}", x.to_bits())));
    }

    // a table of 32 taps and 64 phases over f32, read at the delay that the modulation asks for
    let mut engine = ModulationEngine::new(48_000.0, 1)?;
    let mut sinc = VariableDelayF32::new(1000, 0, WindowedSincF32::new(32, 64, 1.0, 12.0)?)?;
    for n in 0..4 {
        let offset = engine.next(ModulationParams::default())?;
        say("sinc", n, sinc.process_sample(1.0 / (n + 1) as f32, offset.left - 63.0).map(word));
    }

    // a bank of one set; the second call starts a change of quality that takes two calls
    let bank = Arc::new(SincBankF32::for_max_rate(1.0)?);
    let mut reader = QualityVariableDelayF32::new(100, 64, bank, QualityMode::Draft, 2)?;
    let asked = [QualityMode::Draft, QualityMode::Normal, QualityMode::Normal, QualityMode::Normal];
    for (n, quality) in asked.into_iter().enumerate() {
        say("quality", n, reader.process_sample((n + 1) as f32, 0.5, quality).map(word));
    }

    // a table of an odd number of taps
    say("table", 0, WindowedSincF32::new(5, 64, 1.0, 12.0).map(|_| "built".into()));
    Ok(())
}

fn word(x: f32) -> String {
    format!("{:08X}", x.to_bits())
}

fn say(reader: &str, call: usize, answer: Result<String, Refusal>) {
    match answer {
        Ok(pattern) => println!("{reader} {call} {pattern}"),
        Err(refusal) => {
            println!("{reader} {call} refused {}", refusal.number());
            eprintln!("{reader} {call}: {refusal}");
        }
    }
}
