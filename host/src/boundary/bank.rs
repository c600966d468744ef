//! The bank of tables, and the reader whose quality may change.

/// A quality reader's numbers beside its ring. A quality is its place in 000's list, from 0; the rule is 0 for the ported
/// one and 1 for the one that goes back without a jump, the direction 0 for onwards and 1 for back.
#[derive(Clone, Debug)]
pub struct QualityReader {
    pub maximum: usize,
    pub margin: usize,
    pub accepted: u64,
    pub current: u8,
    pub target: u8,
    pub crossfade_position: u32,
    pub crossfade_samples: u32,
    pub rule: u8,
    pub direction: u8,
    pub ring: Vec<f32>,
}

#[rustfmt::skip]
extern "C" {
    fn fugnadri_bank_length(max_rate: f64) -> usize;
    fn fugnadri_bank_steps(max_rate: f64) -> usize;
    fn fugnadri_bank_set_rate(max_rate: f64, set: usize) -> f64;
    fn fugnadri_bank_choose(max_rate: f64, rate: f64, safe: &mut usize, tighter: &mut usize, which: &mut u8, blend: &mut f32) -> u8;
    fn fugnadri_bank_build_set(rate: f64, set: *mut f32, set_len: usize) -> u8;
    fn fugnadri_bank_build(max_rate: f64, sets: *mut f32, sets_len: usize) -> u8;
    fn fugnadri_bank_build_set_in(rate: f64, mode: u8, set: *mut f32, set_len: usize) -> u8;
    fn fugnadri_bank_build_in(max_rate: f64, mode: u8, sets: *mut f32, sets_len: usize) -> u8;
    fn fugnadri_quality_open(
        maximum: usize, margin: usize, quality: u8, crossfade_samples: u32, accepted: &mut u64, current: &mut u8, target: &mut u8, crossfade_position: &mut u32,
        rule: &mut u8, direction: &mut u8, ring: *mut f32, ring_len: usize,
    ) -> u8;
    fn fugnadri_quality_open_returning(
        maximum: usize, margin: usize, quality: u8, crossfade_samples: u32, accepted: &mut u64, current: &mut u8, target: &mut u8, crossfade_position: &mut u32,
        rule: &mut u8, direction: &mut u8, ring: *mut f32, ring_len: usize,
    ) -> u8;
    fn fugnadri_quality_reset(
        maximum: usize, margin: usize, accepted: &mut u64, current: &mut u8, target: &mut u8, crossfade_position: &mut u32, crossfade_samples: u32,
        rule: u8, direction: &mut u8, ring: *mut f32, ring_len: usize,
    ) -> u8;
    fn fugnadri_quality_process(
        maximum: usize, margin: usize, accepted: &mut u64, current: &mut u8, target: &mut u8, crossfade_position: &mut u32, crossfade_samples: u32,
        rule: u8, direction: &mut u8, ring: *mut f32, ring_len: usize, sets: *const f32, sets_len: usize, max_rate: f64, input: f32, delay: f64, quality: u8, sample: &mut f32,
    ) -> u8;
    fn fugnadri_quality_process_bits(
        maximum: usize, margin: usize, accepted: &mut u64, current: &mut u8, target: &mut u8, crossfade_position: &mut u32, crossfade_samples: u32,
        rule: u8, direction: &mut u8, ring: *mut f32, ring_len: usize, sets: *const f32, sets_len: usize, max_rate: f64, input: f32, delay: f64, quality: u8, sample: &mut u32,
    ) -> u8;
    fn fugnadri_quality_process_rate_aware(
        maximum: usize, margin: usize, accepted: &mut u64, current: &mut u8, target: &mut u8, crossfade_position: &mut u32, crossfade_samples: u32,
        rule: u8, direction: &mut u8, ring: *mut f32, ring_len: usize, sets: *const f32, sets_len: usize, max_rate: f64, input: f32, delay: f64, quality: u8, playback_rate: f64, sample: &mut f32,
    ) -> u8;
    fn fugnadri_quality_process_rate_aware_bits(
        maximum: usize, margin: usize, accepted: &mut u64, current: &mut u8, target: &mut u8, crossfade_position: &mut u32, crossfade_samples: u32,
        rule: u8, direction: &mut u8, ring: *mut f32, ring_len: usize, sets: *const f32, sets_len: usize, max_rate: f64, input: f32, delay: f64, quality: u8, playback_rate: f64, sample: &mut u32,
    ) -> u8;
}

/// Which sets a rate reads: 0 the safe one alone, 1 the tighter alone, 2 both.
#[derive(Clone, Copy, Debug, Default, PartialEq)]
pub struct Choice {
    pub safe: usize,
    pub tighter: usize,
    pub which: u8,
    pub blend: f32,
}

pub fn bank_length(max_rate: f64) -> usize {
    unsafe { fugnadri_bank_length(max_rate) }
}

pub fn bank_steps(max_rate: f64) -> usize {
    unsafe { fugnadri_bank_steps(max_rate) }
}

pub fn bank_set_rate(max_rate: f64, set: usize) -> f64 {
    unsafe { fugnadri_bank_set_rate(max_rate, set) }
}

pub fn bank_choose(max_rate: f64, rate: f64) -> (u8, Choice) {
    // nothing is 0 before, so that what is not written shows
    let mut c = Choice { safe: usize::MAX, tighter: usize::MAX, which: u8::MAX, blend: f32::INFINITY };
    let number = unsafe { fugnadri_bank_choose(max_rate, rate, &mut c.safe, &mut c.tighter, &mut c.which, &mut c.blend) };
    (number, c)
}

pub fn bank_build_set(rate: f64, set: &mut [f32]) -> u8 {
    unsafe { fugnadri_bank_build_set(rate, set.as_mut_ptr(), set.len()) }
}

pub fn bank_build(max_rate: f64, sets: &mut [f32]) -> u8 {
    unsafe { fugnadri_bank_build(max_rate, sets.as_mut_ptr(), sets.len()) }
}

/// The same with every window in a mode of the sum called I0: 0 ported, 1 full, else refused by 1.
pub fn bank_build_set_in(rate: f64, mode: u8, set: &mut [f32]) -> u8 {
    unsafe { fugnadri_bank_build_set_in(rate, mode, set.as_mut_ptr(), set.len()) }
}

pub fn bank_build_in(max_rate: f64, mode: u8, sets: &mut [f32]) -> u8 {
    unsafe { fugnadri_bank_build_in(max_rate, mode, sets.as_mut_ptr(), sets.len()) }
}

impl QualityReader {
    pub fn open(&mut self, quality: u8) -> u8 {
        unsafe {
            fugnadri_quality_open(
                self.maximum, self.margin, quality, self.crossfade_samples, &mut self.accepted, &mut self.current, &mut self.target, &mut self.crossfade_position,
                &mut self.rule, &mut self.direction, self.ring.as_mut_ptr(), self.ring.len(),
            )
        }
    }

    pub fn open_returning(&mut self, quality: u8) -> u8 {
        unsafe {
            fugnadri_quality_open_returning(
                self.maximum, self.margin, quality, self.crossfade_samples, &mut self.accepted, &mut self.current, &mut self.target, &mut self.crossfade_position,
                &mut self.rule, &mut self.direction, self.ring.as_mut_ptr(), self.ring.len(),
            )
        }
    }

    pub fn reset(&mut self) -> u8 {
        unsafe {
            fugnadri_quality_reset(
                self.maximum, self.margin, &mut self.accepted, &mut self.current, &mut self.target, &mut self.crossfade_position, self.crossfade_samples,
                self.rule, &mut self.direction, self.ring.as_mut_ptr(), self.ring.len(),
            )
        }
    }

    #[inline]
    pub fn process(&mut self, sets: &[f32], max_rate: f64, input: f32, delay: f64, quality: u8, sample: &mut f32) -> u8 {
        unsafe {
            fugnadri_quality_process(
                self.maximum, self.margin, &mut self.accepted, &mut self.current, &mut self.target, &mut self.crossfade_position, self.crossfade_samples,
                self.rule, &mut self.direction, self.ring.as_mut_ptr(), self.ring.len(), sets.as_ptr(), sets.len(), max_rate, input, delay, quality, sample,
            )
        }
    }

    #[inline]
    pub fn process_bits(&mut self, sets: &[f32], max_rate: f64, input: f32, delay: f64, quality: u8, sample: &mut u32) -> u8 {
        unsafe {
            fugnadri_quality_process_bits(
                self.maximum, self.margin, &mut self.accepted, &mut self.current, &mut self.target, &mut self.crossfade_position, self.crossfade_samples,
                self.rule, &mut self.direction, self.ring.as_mut_ptr(), self.ring.len(), sets.as_ptr(), sets.len(), max_rate, input, delay, quality, sample,
            )
        }
    }

    #[inline]
    #[allow(clippy::too_many_arguments)]
    pub fn process_rate_aware(
        &mut self, sets: &[f32], max_rate: f64, input: f32, delay: f64, quality: u8, playback_rate: f64, sample: &mut f32,
    ) -> u8 {
        unsafe {
            fugnadri_quality_process_rate_aware(
                self.maximum, self.margin, &mut self.accepted, &mut self.current, &mut self.target, &mut self.crossfade_position, self.crossfade_samples,
                self.rule, &mut self.direction, self.ring.as_mut_ptr(), self.ring.len(), sets.as_ptr(), sets.len(), max_rate, input, delay, quality, playback_rate, sample,
            )
        }
    }

    #[inline]
    #[allow(clippy::too_many_arguments)]
    pub fn process_rate_aware_bits(
        &mut self, sets: &[f32], max_rate: f64, input: f32, delay: f64, quality: u8, playback_rate: f64, sample: &mut u32,
    ) -> u8 {
        unsafe {
            fugnadri_quality_process_rate_aware_bits(
                self.maximum, self.margin, &mut self.accepted, &mut self.current, &mut self.target, &mut self.crossfade_position, self.crossfade_samples,
                self.rule, &mut self.direction, self.ring.as_mut_ptr(), self.ring.len(), sets.as_ptr(), sets.len(), max_rate, input, delay, quality, playback_rate, sample,
            )
        }
    }
}
