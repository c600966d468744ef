//! What host/direct.sh puts in the place of Rust's own `main` and test harness.

#![allow(dead_code)] // each program uses a part

use std::panic::catch_unwind;
use std::process::{ExitCode, Termination};

/// Runs a program's own `main`: the exit status that Rust would give.
pub fn program<T: Termination>(main: fn() -> T) -> i32 {
    i32::from(main().report() != ExitCode::SUCCESS)
}

/// Runs each test, a line for each: the exit status is 1 if one of them panicked.
pub fn tests(tests: &[(&str, fn())]) -> i32 {
    let mut status = 0;
    for (name, test) in tests {
        if catch_unwind(*test).is_ok() {
            println!("test {name} ... ok");
        } else {
            println!("test {name} ... FAILED");
            status = 1;
        }
    }
    status
}
