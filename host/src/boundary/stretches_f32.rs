//! Whole stretches of the f32 delay readers: one call for slices of inputs and delays.

use super::{bank::QualityReader, told::Absent};

#[rustfmt::skip]
extern "C" {
    fn fugnadri_windowed_sinc_f32_stretch(
        maximum: usize, margin: usize, accepted: &mut u64, ring: *mut f32, ring_len: usize,
        inputs: *const f32, inputs_len: usize, delays: *const f64, delays_len: usize,
        table: *const f32, table_len: usize, taps: usize, phases: usize,
        out: *mut f32, out_len: usize, done: &mut usize,
    ) -> u8;
    fn fugnadri_quality_stretch(
        maximum: usize, margin: usize, accepted: &mut u64, current: &mut u8, target: &mut u8, crossfade_position: &mut u32, crossfade_samples: u32,
        rule: u8, direction: &mut u8, ring: *mut f32, ring_len: usize, sets: *const f32, sets_len: usize, max_rate: f64,
        inputs: *const f32, inputs_len: usize, delays: *const f64, delays_len: usize, quality: u8, playback_rate: f64,
        out: *mut f32, out_len: usize, done: &mut usize,
    ) -> u8;
    fn fugnadri_windowed_sinc_f32_stretch_told(
        maximum: usize, margin: usize, accepted: &mut u64, ring: *mut f32, ring_len: usize,
        inputs: *const f32, inputs_len: usize, delays: *const f64, delays_len: usize,
        table: *const f32, table_len: usize, taps: usize, phases: usize,
        out: *mut f32, out_len: usize, done: &mut usize, unwritten: &mut u64, ahead: &mut u64, overwritten: &mut u64,
    ) -> u8;
    fn fugnadri_quality_stretch_told(
        maximum: usize, margin: usize, accepted: &mut u64, current: &mut u8, target: &mut u8, crossfade_position: &mut u32, crossfade_samples: u32,
        rule: u8, direction: &mut u8, ring: *mut f32, ring_len: usize, sets: *const f32, sets_len: usize, max_rate: f64,
        inputs: *const f32, inputs_len: usize, delays: *const f64, delays_len: usize, quality: u8, playback_rate: f64,
        out: *mut f32, out_len: usize, done: &mut usize, unwritten: &mut u64, ahead: &mut u64, overwritten: &mut u64,
    ) -> u8;
}

/// A stretch's two lent slices, and how many items are done.
pub struct ItemsF32<'a> {
    pub inputs: &'a [f32],
    pub delays: &'a [f64],
    pub done: usize,
}

/// A lent table with its settings.
#[derive(Clone, Copy)]
pub struct LentF32<'a> {
    pub table: &'a [f32],
    pub taps: usize,
    pub phases: usize,
}

/// The refusal's number comes back, 0 for none.
#[inline]
pub fn sinc_f32_stretch(
    maximum: usize,
    margin: usize,
    accepted: &mut u64,
    ring: &mut [f32],
    items: &mut ItemsF32,
    lent: LentF32,
    out: &mut [f32],
) -> u8 {
    let ItemsF32 { inputs: x, delays: y, done } = items;
    let LentF32 { table, taps, phases } = lent;
    unsafe {
        fugnadri_windowed_sinc_f32_stretch(
            maximum, margin, accepted, ring.as_mut_ptr(), ring.len(), x.as_ptr(), x.len(), y.as_ptr(), y.len(),
            table.as_ptr(), table.len(), taps, phases, out.as_mut_ptr(), out.len(), done,
        )
    }
}

/// The same, with the sums of the absent taps of all items done.
#[inline]
#[allow(clippy::too_many_arguments)]
pub fn sinc_f32_stretch_told(
    maximum: usize,
    margin: usize,
    accepted: &mut u64,
    ring: &mut [f32],
    items: &mut ItemsF32,
    lent: LentF32,
    out: &mut [f32],
    absent: &mut Absent,
) -> u8 {
    let ItemsF32 { inputs: x, delays: y, done } = items;
    let LentF32 { table, taps, phases } = lent;
    let Absent { unwritten, ahead, overwritten } = absent;
    unsafe {
        fugnadri_windowed_sinc_f32_stretch_told(
            maximum, margin, accepted, ring.as_mut_ptr(), ring.len(), x.as_ptr(), x.len(), y.as_ptr(), y.len(),
            table.as_ptr(), table.len(), taps, phases, out.as_mut_ptr(), out.len(), done, unwritten, ahead, overwritten,
        )
    }
}

/// A bank's sets with its maximum rate, and what a stretch asks of them.
#[derive(Clone, Copy)]
pub struct Asked<'a> {
    pub sets: &'a [f32],
    pub max_rate: f64,
    pub quality: u8,
    pub playback_rate: f64,
}

impl QualityReader {
    /// The refusal's number comes back, 0 for none.
    #[inline]
    pub fn stretch(&mut self, items: &mut ItemsF32, asked: Asked, out: &mut [f32]) -> u8 {
        let ItemsF32 { inputs: x, delays: y, done } = items;
        let Asked { sets, max_rate, quality, playback_rate } = asked;
        unsafe {
            fugnadri_quality_stretch(
                self.maximum, self.margin, &mut self.accepted, &mut self.current, &mut self.target, &mut self.crossfade_position,
                self.crossfade_samples, self.rule, &mut self.direction, self.ring.as_mut_ptr(), self.ring.len(), sets.as_ptr(),
                sets.len(), max_rate, x.as_ptr(), x.len(), y.as_ptr(), y.len(), quality, playback_rate, out.as_mut_ptr(),
                out.len(), done,
            )
        }
    }
    /// The same, with the sums of the absent taps of all items done.
    #[inline]
    pub fn stretch_told(&mut self, items: &mut ItemsF32, asked: Asked, out: &mut [f32], absent: &mut Absent) -> u8 {
        let ItemsF32 { inputs: x, delays: y, done } = items;
        let Asked { sets, max_rate, quality, playback_rate } = asked;
        let Absent { unwritten, ahead, overwritten } = absent;
        unsafe {
            fugnadri_quality_stretch_told(
                self.maximum, self.margin, &mut self.accepted, &mut self.current, &mut self.target, &mut self.crossfade_position,
                self.crossfade_samples, self.rule, &mut self.direction, self.ring.as_mut_ptr(), self.ring.len(), sets.as_ptr(),
                sets.len(), max_rate, x.as_ptr(), x.len(), y.as_ptr(), y.len(), quality, playback_rate, out.as_mut_ptr(),
                out.len(), done, unwritten, ahead, overwritten,
            )
        }
    }
}
