//! The static libraries' exported functions: one safe function for each.
//!
//! The only place that declares them for Rust, with boundary/. `oracle/run` holds these lines to the
//! signatures in crates/fugnadri* before it builds, and its subjects call every one; oracle/ and bench/ build
//! this file as a crate of its own. Each function there is total (no `requires`), so a call is safe at every argument.

#[path = "boundary/aiff.rs"]
mod aiff;
pub use aiff::*;
#[path = "boundary/bank.rs"]
mod bank;
pub use bank::*;
#[path = "boundary/desks.rs"]
mod desks;
pub use desks::*;
#[path = "boundary/exports.rs"]
#[macro_use]
mod exports;
pub use exports::*;
#[path = "boundary/kernels.rs"]
mod kernels;
pub use kernels::*;
#[path = "boundary/oversampled.rs"]
mod oversampled;
pub use oversampled::*;
#[path = "boundary/readers.rs"]
mod readers;
pub use readers::*;
#[path = "boundary/residual.rs"]
mod residual;
pub use residual::*;
#[path = "boundary/room.rs"]
mod room;
pub use room::*;
#[path = "boundary/stretches.rs"]
mod stretches;
pub use stretches::*;
#[path = "boundary/stretches_f32.rs"]
mod stretches_f32;
pub use stretches_f32::*;
#[path = "boundary/tables.rs"]
mod tables;
pub use tables::*;
#[path = "boundary/oversampled_told.rs"]
mod oversampled_told;
#[path = "boundary/told.rs"]
mod told;
pub use told::*;
#[path = "boundary/wav.rs"]
mod wav;
pub use wav::*;
#[path = "boundary/wav_write.rs"]
mod wav_write;
pub use wav_write::*;

/// Declares functions over numbers, and wraps each under its name without the prefix.
macro_rules! numbers {
    ($($(#[$doc:meta])* fn $symbol:ident as $name:ident($($arg:ident: $of:ty),*) -> $result:ty;)*) => {
        extern "C" {
            $(fn $symbol($($arg: $of),*) -> $result;)*
        }
        $(
            $(#[$doc])*
            #[inline]
            pub fn $name($($arg: $of),*) -> $result {
                unsafe { $symbol($($arg),*) }
            }
        )*
    };
}

#[path = "boundary/wander.rs"]
mod wander;
pub use wander::*;

numbers! {
    /// Rust's `as f32`.
    fn fugnadri_narrow as narrow(x: f64) -> f32;
    fn fugnadri_narrow_bits as narrow_bits(x: u64) -> u32;
    /// Rust's `mul_add`: a * b + c, rounded once.
    fn fugnadri_fused32 as fused32(a: f32, b: f32, c: f32) -> f32;
    fn fugnadri_fused32_bits as fused32_bits(a: u32, b: u32, c: u32) -> u32;
    fn fugnadri_fused64 as fused64(a: f64, b: f64, c: f64) -> f64;
    fn fugnadri_fused64_bits as fused64_bits(a: u64, b: u64, c: u64) -> u64;
    /// Rust's `sqrt`.
    fn fugnadri_square_root as square_root(x: f64) -> f64;
    fn fugnadri_square_root_bits as square_root_bits(x: u64) -> u64;
    /// Rust's `floor() as i64`.
    fn fugnadri_floor as floor(x: f64) -> i64;
    /// x minus its floor.
    fn fugnadri_fraction as fraction(x: f64) -> f64;
    fn fugnadri_fraction_bits as fraction_bits(x: u64) -> u64;
    /// Rust's `max`, `min` and `clamp`.
    fn fugnadri_max as max(x: f64, least: f64) -> f64;
    fn fugnadri_min as min(x: f64, most: f64) -> f64;
    fn fugnadri_min_f32 as min_f32(a: f32, b: f32) -> f32;
    fn fugnadri_clamp as clamp(x: f64, low: f64, high: f64) -> f64;
    fn fugnadri_clamp_f32 as clamp_f32(a: f32, low: f32, high: f32) -> f32;
    /// Rust's `wrapping_mul` and `<<`.
    fn fugnadri_wrapping_mul as wrapping_mul(a: u64, b: u64) -> u64;
    fn fugnadri_shl as shl(a: u64, n: u64) -> u64;
    /// Rust's `to_bits` and `from_bits`, with one pattern for every NaN.
    fn fugnadri_bits_of as bits_of(x: f64) -> u64;
    fn fugnadri_float_of as float_of(n: u64) -> f64;
    fn fugnadri_bits_of_f32 as bits_of_f32(a: f32) -> u32;
    fn fugnadri_float_of_f32 as float_of_f32(n: u32) -> f32;
    /// The port's sine, cosine and 2^x: 0.0 where the argument is refused, or the refusal's number too.
    fn fugnadri_sine_value as sine(x: f64) -> f64;
    fn fugnadri_sine as sine_or_refusal(x: f64, res: &mut f64) -> u8;
    fn fugnadri_cosine_value as cosine(x: f64) -> f64;
    fn fugnadri_cosine as cosine_or_refusal(x: f64, res: &mut f64) -> u8;
    fn fugnadri_exp2_value as exp2(x: f64) -> f64;
    fn fugnadri_exp2 as exp2_or_refusal(x: f64, res: &mut f64) -> u8;
}
