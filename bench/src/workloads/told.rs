//! The cubic reader whose call tells how many taps were absent: the original's call with a plain count of its four taps
//! beside it, on the inputs of `cubic`. An answer is the sample's pattern with the three numbers put into it.

use super::readers::inputs;
use crate::Workload;
use boundary::{Absent, Reader, CUBIC};
use wow_dsp::{CubicFarrow, VariableDelay};

/// By name: making one may take seconds.
pub const WORKLOADS: &[(&str, fn() -> Workload)] = &[("cubic_told", cubic)];

const LENGTH: usize = 1024;

/// What a user of the original can do: the taps from the position on, each looked at by itself.
fn counted(newest: i64, delay: f64) -> Absent {
    let first = (newest as f64 - delay).floor() as i64 - 1;
    let mut absent = Absent::default();
    for tap in first..first + 4 {
        if tap < 0 {
            absent.unwritten += 1;
        } else if tap > newest {
            absent.ahead += 1;
        } else if newest - tap >= LENGTH as i64 {
            absent.overwritten += 1;
        }
    }
    absent
}

fn put(sample: f64, absent: Absent) -> u64 {
    sample.to_bits() ^ absent.unwritten ^ absent.ahead << 8 ^ absent.overwritten << 16
}

fn cubic() -> Workload {
    let inputs = inputs();
    let samples = inputs.clone();
    let mut theirs = VariableDelay::new(LENGTH - 24, 0, CubicFarrow);
    let mut ours = Reader { maximum: LENGTH - 24, margin: 0, accepted: 0, ring: vec![0.0; LENGTH] };
    Workload {
        answers: inputs.len(),
        rust: Box::new(move |answers| {
            for (to, [input, delay]) in answers.iter_mut().zip(&inputs) {
                let sample = theirs.process_sample(*input, *delay);
                *to = put(sample, counted(theirs.write_index - 1, *delay));
            }
        }),
        port: Box::new(move |answers| {
            for (to, [input, delay]) in answers.iter_mut().zip(&samples) {
                let (mut sample, mut absent) = (0.0, Absent::default());
                (CUBIC.process_told)(&mut ours, *input, *delay, 4, &mut sample, &mut absent);
                *to = put(sample, absent);
            }
        }),
    }
}
