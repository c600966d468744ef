//! Tables of the windowed sinc, their readings over plain slices, and the delay readers over them, in both widths.

#[rustfmt::skip]
extern "C" {
    fn fugnadri_windowed_sinc_new(taps: usize, phases: usize, cutoff: f64, beta: f64, table: *mut f64, table_len: usize) -> u8;
    fn fugnadri_windowed_sinc_for_max_rate(taps: usize, phases: usize, max_rate: f64, passband: f64, beta: f64, table: *mut f64, table_len: usize) -> u8;
    fn fugnadri_windowed_sinc_f32_new(taps: usize, phases: usize, cutoff: f64, beta: f64, table: *mut f32, table_len: usize) -> u8;
    fn fugnadri_windowed_sinc_f32_for_max_rate(taps: usize, phases: usize, max_rate: f64, passband: f64, beta: f64, table: *mut f32, table_len: usize) -> u8;
    fn fugnadri_windowed_sinc_new_in(taps: usize, phases: usize, cutoff: f64, beta: f64, mode: u8, table: *mut f64, table_len: usize) -> u8;
    fn fugnadri_windowed_sinc_for_max_rate_in(
        taps: usize, phases: usize, max_rate: f64, passband: f64, beta: f64, mode: u8, table: *mut f64, table_len: usize,
    ) -> u8;
    fn fugnadri_windowed_sinc_f32_new_in(taps: usize, phases: usize, cutoff: f64, beta: f64, mode: u8, table: *mut f32, table_len: usize) -> u8;
    fn fugnadri_windowed_sinc_f32_for_max_rate_in(
        taps: usize, phases: usize, max_rate: f64, passband: f64, beta: f64, mode: u8, table: *mut f32, table_len: usize,
    ) -> u8;
    fn fugnadri_windowed_sinc_sample(
        table: *const f64, table_len: usize, taps: usize, phases: usize, source: *const f64, source_len: usize, count: u64, position: f64, sample: &mut f64,
    ) -> u8;
    fn fugnadri_windowed_sinc_sample_bits(
        table: *const f64, table_len: usize, taps: usize, phases: usize, source: *const f64, source_len: usize, count: u64, position: f64, sample: &mut u64,
    ) -> u8;
    fn fugnadri_windowed_sinc_f32_sample(
        table: *const f32, table_len: usize, taps: usize, phases: usize, source: *const f32, source_len: usize, count: u64, position: f64, sample: &mut f32,
    ) -> u8;
    fn fugnadri_windowed_sinc_f32_sample_bits(
        table: *const f32, table_len: usize, taps: usize, phases: usize, source: *const f32, source_len: usize, count: u64, position: f64, sample: &mut u32,
    ) -> u8;
    fn fugnadri_open_f32(maximum: usize, margin: usize, accepted: &mut u64, ring: *mut f32, ring_len: usize) -> u8;
    fn fugnadri_reset_f32(maximum: usize, margin: usize, accepted: &mut u64, ring: *mut f32, ring_len: usize) -> u8;
    fn fugnadri_windowed_sinc_process(
        maximum: usize, margin: usize, accepted: &mut u64, ring: *mut f64, ring_len: usize, input: f64, delay: f64,
        table: *const f64, table_len: usize, taps: usize, phases: usize, sample: &mut f64,
    ) -> u8;
    fn fugnadri_windowed_sinc_process_bits(
        maximum: usize, margin: usize, accepted: &mut u64, ring: *mut f64, ring_len: usize, input: f64, delay: f64,
        table: *const f64, table_len: usize, taps: usize, phases: usize, sample: &mut u64,
    ) -> u8;
    fn fugnadri_windowed_sinc_f32_process(
        maximum: usize, margin: usize, accepted: &mut u64, ring: *mut f32, ring_len: usize, input: f32, delay: f64,
        table: *const f32, table_len: usize, taps: usize, phases: usize, sample: &mut f32,
    ) -> u8;
    fn fugnadri_windowed_sinc_f32_process_bits(
        maximum: usize, margin: usize, accepted: &mut u64, ring: *mut f32, ring_len: usize, input: f32, delay: f64,
        table: *const f32, table_len: usize, taps: usize, phases: usize, sample: &mut u32,
    ) -> u8;
}

/// What the two widths share: a type of samples and the exports over it.
pub trait Width: Copy + PartialEq + 'static {
    type Bits: Copy + Default + Into<u64>;
    fn build(taps: usize, phases: usize, cutoff: f64, beta: f64, table: &mut [Self]) -> u8;
    fn build_for_max_rate(taps: usize, phases: usize, max_rate: f64, passband: f64, beta: f64, table: &mut [Self]) -> u8;
    fn build_in(taps: usize, phases: usize, cutoff: f64, beta: f64, mode: u8, table: &mut [Self]) -> u8;
    #[rustfmt::skip]
    fn build_for_max_rate_in(taps: usize, phases: usize, max_rate: f64, passband: f64, beta: f64, mode: u8, table: &mut [Self]) -> u8;
    fn sinc_sample(table: &[Self], taps: usize, phases: usize, source: &[Self], count: u64, position: f64, sample: &mut Self) -> u8;
    fn sinc_sample_bits(table: &[Self], taps: usize, phases: usize, source: &[Self], count: u64, position: f64, sample: &mut Self::Bits) -> u8;
    fn open(maximum: usize, margin: usize, accepted: &mut u64, ring: &mut [Self]) -> u8;
    fn reset(maximum: usize, margin: usize, accepted: &mut u64, ring: &mut [Self]) -> u8;
    #[allow(clippy::too_many_arguments)]
    fn sinc_process(
        maximum: usize, margin: usize, accepted: &mut u64, ring: &mut [Self], input: Self, delay: f64, table: &[Self], taps: usize, phases: usize, sample: &mut Self,
    ) -> u8;
    #[allow(clippy::too_many_arguments)]
    fn sinc_process_bits(
        maximum: usize, margin: usize, accepted: &mut u64, ring: &mut [Self], input: Self, delay: f64, table: &[Self], taps: usize, phases: usize, sample: &mut Self::Bits,
    ) -> u8;
}

macro_rules! width {
    ($float:ty, $bits:ty, $new:ident, $rate:ident, $new_in:ident, $rate_in:ident, $sample:ident, $sample_bits:ident, $open:path, $reset:path, $process:ident, $process_bits:ident) => {
        impl Width for $float {
            type Bits = $bits;
            fn build(taps: usize, phases: usize, cutoff: f64, beta: f64, table: &mut [Self]) -> u8 {
                unsafe { $new(taps, phases, cutoff, beta, table.as_mut_ptr(), table.len()) }
            }
            fn build_for_max_rate(taps: usize, phases: usize, max_rate: f64, passband: f64, beta: f64, table: &mut [Self]) -> u8 {
                unsafe { $rate(taps, phases, max_rate, passband, beta, table.as_mut_ptr(), table.len()) }
            }
            fn build_in(taps: usize, phases: usize, cutoff: f64, beta: f64, mode: u8, table: &mut [Self]) -> u8 {
                unsafe { $new_in(taps, phases, cutoff, beta, mode, table.as_mut_ptr(), table.len()) }
            }
            fn build_for_max_rate_in(taps: usize, phases: usize, max_rate: f64, passband: f64, beta: f64, mode: u8, table: &mut [Self]) -> u8 {
                unsafe { $rate_in(taps, phases, max_rate, passband, beta, mode, table.as_mut_ptr(), table.len()) }
            }
            fn sinc_sample(table: &[Self], taps: usize, phases: usize, source: &[Self], count: u64, position: f64, sample: &mut Self) -> u8 {
                unsafe { $sample(table.as_ptr(), table.len(), taps, phases, source.as_ptr(), source.len(), count, position, sample) }
            }
            fn sinc_sample_bits(table: &[Self], taps: usize, phases: usize, source: &[Self], count: u64, position: f64, sample: &mut $bits) -> u8 {
                unsafe { $sample_bits(table.as_ptr(), table.len(), taps, phases, source.as_ptr(), source.len(), count, position, sample) }
            }
            fn open(maximum: usize, margin: usize, accepted: &mut u64, ring: &mut [Self]) -> u8 {
                unsafe { $open(maximum, margin, accepted, ring.as_mut_ptr(), ring.len()) }
            }
            fn reset(maximum: usize, margin: usize, accepted: &mut u64, ring: &mut [Self]) -> u8 {
                unsafe { $reset(maximum, margin, accepted, ring.as_mut_ptr(), ring.len()) }
            }
            #[inline]
            fn sinc_process(
                maximum: usize, margin: usize, accepted: &mut u64, ring: &mut [Self], input: Self, delay: f64, table: &[Self], taps: usize, phases: usize, sample: &mut Self,
            ) -> u8 {
                unsafe { $process(maximum, margin, accepted, ring.as_mut_ptr(), ring.len(), input, delay, table.as_ptr(), table.len(), taps, phases, sample) }
            }
            fn sinc_process_bits(
                maximum: usize, margin: usize, accepted: &mut u64, ring: &mut [Self], input: Self, delay: f64, table: &[Self], taps: usize, phases: usize, sample: &mut $bits,
            ) -> u8 {
                unsafe { $process_bits(maximum, margin, accepted, ring.as_mut_ptr(), ring.len(), input, delay, table.as_ptr(), table.len(), taps, phases, sample) }
            }
        }
    };
}

width!(
    f64, u64, fugnadri_windowed_sinc_new, fugnadri_windowed_sinc_for_max_rate,
    fugnadri_windowed_sinc_new_in, fugnadri_windowed_sinc_for_max_rate_in, fugnadri_windowed_sinc_sample, fugnadri_windowed_sinc_sample_bits,
    super::readers::fugnadri_open, super::readers::fugnadri_reset, fugnadri_windowed_sinc_process, fugnadri_windowed_sinc_process_bits
);
width!(
    f32, u32, fugnadri_windowed_sinc_f32_new, fugnadri_windowed_sinc_f32_for_max_rate,
    fugnadri_windowed_sinc_f32_new_in, fugnadri_windowed_sinc_f32_for_max_rate_in, fugnadri_windowed_sinc_f32_sample, fugnadri_windowed_sinc_f32_sample_bits,
    fugnadri_open_f32, fugnadri_reset_f32, fugnadri_windowed_sinc_f32_process, fugnadri_windowed_sinc_f32_process_bits
);
