//! The kernels without a table: the exports over each, an entry a kernel. Whoever goes over the kernels goes through
//! `KERNELS`, so that no other file of host/, oracle/ or bench/ names their functions.

use super::{exports::Exports, readers::Reader, stretches::Items, told::Absent};

#[rustfmt::skip]
extern "C" {
    fn fugnadri_cubic_process(
        maximum: usize, margin: usize, accepted: &mut u64, ring: *mut f64, ring_len: usize,
        input: f64, delay: f64, sample: &mut f64,
    ) -> u8;
    fn fugnadri_cubic_process_bits(
        maximum: usize, margin: usize, accepted: &mut u64, ring: *mut f64, ring_len: usize,
        input: f64, delay: f64, sample: &mut u64,
    ) -> u8;
    fn fugnadri_cubic_process_told(
        maximum: usize, margin: usize, accepted: &mut u64, ring: *mut f64, ring_len: usize,
        input: f64, delay: f64, sample: &mut f64, unwritten: &mut u64, ahead: &mut u64, overwritten: &mut u64,
    ) -> u8;
    fn fugnadri_cubic_sample(
        source: *const f64, source_len: usize, count: u64, position: f64, sample: &mut f64,
    ) -> u8;
    fn fugnadri_cubic_sample_bits(
        source: *const f64, source_len: usize, count: u64, position: f64, sample: &mut u64,
    ) -> u8;
    fn fugnadri_cubic_stretch(
        maximum: usize, margin: usize, accepted: &mut u64, ring: *mut f64, ring_len: usize,
        inputs: *const f64, inputs_len: usize, delays: *const f64, delays_len: usize,
        out: *mut f64, out_len: usize, done: &mut usize,
    ) -> u8;
    fn fugnadri_cubic_stretch_told(
        maximum: usize, margin: usize, accepted: &mut u64, ring: *mut f64, ring_len: usize,
        inputs: *const f64, inputs_len: usize, delays: *const f64, delays_len: usize,
        out: *mut f64, out_len: usize, done: &mut usize, unwritten: &mut u64, ahead: &mut u64, overwritten: &mut u64,
    ) -> u8;

    fn fugnadri_farrow8_process(
        maximum: usize, margin: usize, accepted: &mut u64, ring: *mut f64, ring_len: usize,
        input: f64, delay: f64, sample: &mut f64,
    ) -> u8;
    fn fugnadri_farrow8_process_bits(
        maximum: usize, margin: usize, accepted: &mut u64, ring: *mut f64, ring_len: usize,
        input: f64, delay: f64, sample: &mut u64,
    ) -> u8;
    fn fugnadri_farrow8_process_told(
        maximum: usize, margin: usize, accepted: &mut u64, ring: *mut f64, ring_len: usize,
        input: f64, delay: f64, sample: &mut f64, unwritten: &mut u64, ahead: &mut u64, overwritten: &mut u64,
    ) -> u8;
    fn fugnadri_farrow8_sample(
        source: *const f64, source_len: usize, count: u64, position: f64, sample: &mut f64,
    ) -> u8;
    fn fugnadri_farrow8_sample_bits(
        source: *const f64, source_len: usize, count: u64, position: f64, sample: &mut u64,
    ) -> u8;
    fn fugnadri_farrow8_stretch(
        maximum: usize, margin: usize, accepted: &mut u64, ring: *mut f64, ring_len: usize,
        inputs: *const f64, inputs_len: usize, delays: *const f64, delays_len: usize,
        out: *mut f64, out_len: usize, done: &mut usize,
    ) -> u8;
    fn fugnadri_farrow8_stretch_told(
        maximum: usize, margin: usize, accepted: &mut u64, ring: *mut f64, ring_len: usize,
        inputs: *const f64, inputs_len: usize, delays: *const f64, delays_len: usize,
        out: *mut f64, out_len: usize, done: &mut usize, unwritten: &mut u64, ahead: &mut u64, overwritten: &mut u64,
    ) -> u8;

    fn fugnadri_lagrange_process(
        maximum: usize, margin: usize, accepted: &mut u64, ring: *mut f64, ring_len: usize,
        input: f64, delay: f64, taps: u64, sample: &mut f64,
    ) -> u8;
    fn fugnadri_lagrange_process_bits(
        maximum: usize, margin: usize, accepted: &mut u64, ring: *mut f64, ring_len: usize,
        input: f64, delay: f64, taps: u64, sample: &mut u64,
    ) -> u8;
    fn fugnadri_lagrange_process_told(
        maximum: usize, margin: usize, accepted: &mut u64, ring: *mut f64, ring_len: usize,
        input: f64, delay: f64, taps: u64, sample: &mut f64,
        unwritten: &mut u64, ahead: &mut u64, overwritten: &mut u64,
    ) -> u8;
    fn fugnadri_lagrange_sample(
        source: *const f64, source_len: usize, count: u64, position: f64, taps: u64, sample: &mut f64,
    ) -> u8;
    fn fugnadri_lagrange_sample_bits(
        source: *const f64, source_len: usize, count: u64, position: f64, taps: u64, sample: &mut u64,
    ) -> u8;
    fn fugnadri_lagrange_stretch(
        maximum: usize, margin: usize, accepted: &mut u64, ring: *mut f64, ring_len: usize,
        inputs: *const f64, inputs_len: usize, delays: *const f64, delays_len: usize, taps: u64,
        out: *mut f64, out_len: usize, done: &mut usize,
    ) -> u8;
    fn fugnadri_lagrange_stretch_told(
        maximum: usize, margin: usize, accepted: &mut u64, ring: *mut f64, ring_len: usize,
        inputs: *const f64, inputs_len: usize, delays: *const f64, delays_len: usize, taps: u64,
        out: *mut f64, out_len: usize, done: &mut usize, unwritten: &mut u64, ahead: &mut u64, overwritten: &mut u64,
    ) -> u8;
}

kernels! {
    CUBIC "cubic", |_| 4 => fugnadri_cubic_process fugnadri_cubic_process_bits fugnadri_cubic_process_told
        fugnadri_cubic_sample fugnadri_cubic_sample_bits fugnadri_cubic_stretch fugnadri_cubic_stretch_told;
    FARROW8 "farrow8", |_| 8 => fugnadri_farrow8_process fugnadri_farrow8_process_bits fugnadri_farrow8_process_told
        fugnadri_farrow8_sample fugnadri_farrow8_sample_bits fugnadri_farrow8_stretch fugnadri_farrow8_stretch_told;
    LAGRANGE "lagrange", |taps| taps, asks => fugnadri_lagrange_process fugnadri_lagrange_process_bits
        fugnadri_lagrange_process_told fugnadri_lagrange_sample fugnadri_lagrange_sample_bits
        fugnadri_lagrange_stretch fugnadri_lagrange_stretch_told;
}
