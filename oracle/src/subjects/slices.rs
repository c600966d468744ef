//! G3. The kernels over a plain slice, beside the original's over a `SliceSource`: a ring whose
//! count is its length. A position that is not finite or beyond 2^36 is refusal 1. By host/ in both ways,
//! and by the two exports.

use crate::context::Context;
use crate::delays::{self, END};
use crate::kernels::{every, Beside};
use crate::shape::bits64;

fn differs(kernel: &Beside, source: &[f64], position: f64) -> bool {
    let inside = position.abs() <= END;
    let (number, right) = if inside { (0, bits64((kernel.at)(source, position))) } else { (1, 0) };
    let (count, mut sample, mut bits) = (source.len() as u64, f64::NAN, 1);
    let given = [
        (kernel.port.sample)(source, count, position, kernel.taps, &mut sample),
        (kernel.port.sample_bits)(source, count, position, kernel.taps, &mut bits),
    ];
    let host = (kernel.host_at)(source, position).map(|(given, sample)| (given, bits64(sample)));
    given != [number; 2] || bits64(sample) != right || bits != right || host != [(number, right); 2]
}

/// Ever shorter and emptier slices, as long as the two sides still differ.
fn stop(kernel: &Beside, mut source: Vec<f64>, position: f64) -> ! {
    while !source.is_empty() && differs(kernel, &source[..source.len() - 1], position) {
        source.pop();
    }
    for k in 0..source.len() {
        for simple in [0.0, 1.0] {
            let old = std::mem::replace(&mut source[k], simple);
            if differs(kernel, &source, position) {
                break;
            }
            source[k] = old;
        }
    }
    let (mut sample, count) = (f64::NAN, source.len() as u64);
    let number = (kernel.port.sample)(&source, count, position, kernel.taps, &mut sample);
    println!(
        "DIFFERENCE in the {} kernel over a slice, at position {position:e} ({:016X})",
        kernel.name(),
        position.to_bits()
    );
    println!("  samples {source:?}");
    println!("  Rust {:e}, Fugnadri {sample:e} with the number {number}", (kernel.at)(&source, position));
    println!("  host/, strict and lenient: {:?}", (kernel.host_at)(&source, position));
    std::process::exit(1)
}

pub fn run(context: &mut Context) {
    for kernel in every() {
        for (kind, hostile) in [("slices as recorded", false), ("slices, hostile samples", true)] {
            let random = &mut context.random;
            let mut compared = 0;
            for _ in 0..64 {
                let length = random.within(0, 40) as usize;
                let source: Vec<f64> = (0..length)
                    .map(|_| if hostile { delays::hostile(random) } else { delays::plain(random) })
                    .collect();
                for _ in 0..32 {
                    let position = delays::position(random, length);
                    if differs(kernel, &source, position) {
                        stop(kernel, source, position);
                    }
                    compared += 1;
                }
            }
            context.count(&kernel.name(), kind, compared, None);
        }
    }
}
