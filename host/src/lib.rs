//! Fugnadri for Rust: the original's types and methods over the proved static libraries, which allocate nothing; the types own the rings and
//! tables that they lend.
//!
//! Two ways to the same answers:
//! - the crate's root, which is [`lenient`]: the original's own names and signatures. Where the original, in a release build, answers 0.0 and does
//!   not advance, so does this; where it panics, or the arguments leave the range in which the port is proved, it panics and says why. A user of the original changes
//!   one line of Cargo.toml: `wow-dsp = { package = "fugnadri-host", path = "fugnadri/host" }`.
//! - [`strict`]: the same names, and a `Result` with a [`Refusal`] wherever a call can be refused. After a refusal everything is as it was.
//!
//! Beyond the original: every reader has calls whose names end in `_told`, which also give the number of [`Absent`] taps; [`wav`] reads the transfer desk's files, and [`aiff`] the lender's.
//!
//! Not taken over: the oversampled readers' filters by themselves, and kernels that a user writes ([`Kernel`] is closed; a source may be anyone's).
//! Sine, cosine and powers of two are the port's own (docs/ELEMENTARY.md); docs/DIFFERENCES.md lists every difference.
//!
//! What is proved is what the libraries do with what they are handed. This crate itself is plain Rust: it chooses lengths, lends, and hands on.

pub mod aiff;
#[allow(dead_code, unused_imports, clippy::too_many_arguments)]
mod boundary;
#[cfg(compare)]
pub mod compare;
mod desk;
mod doors;
mod kernels;
pub mod lenient;
mod mode;
mod params;
mod quality_mode;
mod refusal;
mod residual;
mod room;
mod sources;
mod stretch;
pub mod strict;
pub mod wav;

pub use desk::{build_set, Desk, DeskDelay, RoomRead, SET_LENGTH};
pub use lenient::*;
pub use mode::Mode;
pub use refusal::Refusal;
pub use residual::Residual;
pub use room::Room;
pub use stretch::Stopped;
