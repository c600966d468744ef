//! The readers that tell how many of a call's taps were absent, by kind. Those of the kernels without a table stand in
//! kernels.rs.

use super::bank::QualityReader;

/// How many of a call's taps were not yet written, ahead of the newest sample, or overwritten; zeros if it was refused.
#[derive(Clone, Copy, Debug, Default, PartialEq, Eq)]
pub struct Absent {
    pub unwritten: u64,
    pub ahead: u64,
    pub overwritten: u64,
}

impl std::ops::AddAssign for Absent {
    fn add_assign(&mut self, more: Self) {
        self.unwritten += more.unwritten;
        self.ahead += more.ahead;
        self.overwritten += more.overwritten;
    }
}

#[rustfmt::skip]
extern "C" {
    fn fugnadri_windowed_sinc_process_told(
        maximum: usize, margin: usize, accepted: &mut u64, ring: *mut f64, ring_len: usize, input: f64, delay: f64,
        table: *const f64, table_len: usize, taps: usize, phases: usize, sample: &mut f64,
        unwritten: &mut u64, ahead: &mut u64, overwritten: &mut u64,
    ) -> u8;
    fn fugnadri_windowed_sinc_f32_process_told(
        maximum: usize, margin: usize, accepted: &mut u64, ring: *mut f32, ring_len: usize, input: f32, delay: f64,
        table: *const f32, table_len: usize, taps: usize, phases: usize, sample: &mut f32,
        unwritten: &mut u64, ahead: &mut u64, overwritten: &mut u64,
    ) -> u8;
    fn fugnadri_quality_process_told(
        maximum: usize, margin: usize, accepted: &mut u64, current: &mut u8, target: &mut u8, crossfade_position: &mut u32, crossfade_samples: u32,
        rule: u8, direction: &mut u8, ring: *mut f32, ring_len: usize, sets: *const f32, sets_len: usize, max_rate: f64, input: f32, delay: f64, quality: u8,
        sample: &mut f32, unwritten: &mut u64, ahead: &mut u64, overwritten: &mut u64,
    ) -> u8;
    fn fugnadri_quality_process_rate_aware_told(
        maximum: usize, margin: usize, accepted: &mut u64, current: &mut u8, target: &mut u8, crossfade_position: &mut u32, crossfade_samples: u32,
        rule: u8, direction: &mut u8, ring: *mut f32, ring_len: usize, sets: *const f32, sets_len: usize, max_rate: f64, input: f32, delay: f64, quality: u8,
        playback_rate: f64, sample: &mut f32, unwritten: &mut u64, ahead: &mut u64, overwritten: &mut u64,
    ) -> u8;
}

/// Wraps functions over a ring and a table of either width.
macro_rules! over_tables {
    ($($symbol:ident as $name:ident($of:ty);)*) => {
        $(
            #[inline]
            #[allow(clippy::too_many_arguments)]
            pub fn $name(
                maximum: usize, margin: usize, accepted: &mut u64, ring: &mut [$of], input: $of, delay: f64, table: &[$of], taps: usize, phases: usize, sample: &mut $of, a: &mut Absent,
            ) -> u8 {
                let (u, h, o) = (&mut a.unwritten, &mut a.ahead, &mut a.overwritten);
                unsafe {
                    $symbol(maximum, margin, accepted, ring.as_mut_ptr(), ring.len(), input, delay, table.as_ptr(), table.len(), taps, phases, sample, u, h, o)
                }
            }
        )*
    };
}

over_tables! {
    fugnadri_windowed_sinc_process_told as sinc_process_told(f64);
    fugnadri_windowed_sinc_f32_process_told as sinc_f32_process_told(f32);
}

/// Wraps functions over a quality reader and its bank.
macro_rules! over_banks {
    ($($symbol:ident as $name:ident($($rate:ident)?);)*) => {
        impl QualityReader {
            $(
                #[inline]
                #[allow(clippy::too_many_arguments)]
                pub fn $name(
                    &mut self, sets: &[f32], max_rate: f64, input: f32, delay: f64, quality: u8, $($rate: f64,)? sample: &mut f32, a: &mut Absent,
                ) -> u8 {
                    let (u, h, o) = (&mut a.unwritten, &mut a.ahead, &mut a.overwritten);
                    unsafe {
                        $symbol(
                            self.maximum, self.margin, &mut self.accepted, &mut self.current, &mut self.target, &mut self.crossfade_position,
                            self.crossfade_samples, self.rule, &mut self.direction, self.ring.as_mut_ptr(), self.ring.len(), sets.as_ptr(), sets.len(),
                            max_rate, input, delay, quality, $($rate,)? sample, u, h, o,
                        )
                    }
                }
            )*
        }
    };
}

over_banks! {
    fugnadri_quality_process_told as process_told();
    fugnadri_quality_process_rate_aware_told as process_rate_aware_told(playback_rate);
}
