//! A desk's call of the quality reader, over a room of tables that two desks share; with or without its absent taps.

use super::{told::Absent, QualityReader};

/// A room as a call reads it: a rate and a mark for each slot, and the floats of a set for each.
#[derive(Clone, Copy, Debug)]
pub struct RoomRead<'a> {
    pub rates: &'a [f64],
    pub marks: &'a [u8],
    pub slots: &'a [f32],
}

/// Who calls: desk 1 or 2, in the mode 0 or 1.
#[derive(Clone, Copy, Debug)]
pub struct Caller {
    pub desk: u8,
    pub mode: u8,
}

#[rustfmt::skip]
extern "C" {
    fn fugnadri_desk_process(
        desk: u8, mode: u8, maximum: usize, margin: usize, accepted: &mut u64, current: &mut u8, target: &mut u8, crossfade_position: &mut u32, crossfade_samples: u32,
        rule: u8, direction: &mut u8, ring: *mut f32, ring_len: usize, rates: *const f64, rates_len: usize, marks: *const u8, marks_len: usize, slots: *const f32, slots_len: usize,
        max_rate: f64, input: f32, delay: f64, quality: u8, sample: &mut f32,
    ) -> u8;
    fn fugnadri_desk_process_rate_aware(
        desk: u8, mode: u8, maximum: usize, margin: usize, accepted: &mut u64, current: &mut u8, target: &mut u8, crossfade_position: &mut u32, crossfade_samples: u32,
        rule: u8, direction: &mut u8, ring: *mut f32, ring_len: usize, rates: *const f64, rates_len: usize, marks: *const u8, marks_len: usize, slots: *const f32, slots_len: usize,
        max_rate: f64, input: f32, delay: f64, quality: u8, playback_rate: f64, sample: &mut f32,
    ) -> u8;
    fn fugnadri_desk_process_told(
        desk: u8, mode: u8, maximum: usize, margin: usize, accepted: &mut u64, current: &mut u8, target: &mut u8, crossfade_position: &mut u32, crossfade_samples: u32,
        rule: u8, direction: &mut u8, ring: *mut f32, ring_len: usize, rates: *const f64, rates_len: usize, marks: *const u8, marks_len: usize, slots: *const f32, slots_len: usize,
        max_rate: f64, input: f32, delay: f64, quality: u8, sample: &mut f32, unwritten: &mut u64, ahead: &mut u64, overwritten: &mut u64,
    ) -> u8;
    fn fugnadri_desk_process_rate_aware_told(
        desk: u8, mode: u8, maximum: usize, margin: usize, accepted: &mut u64, current: &mut u8, target: &mut u8, crossfade_position: &mut u32, crossfade_samples: u32,
        rule: u8, direction: &mut u8, ring: *mut f32, ring_len: usize, rates: *const f64, rates_len: usize, marks: *const u8, marks_len: usize, slots: *const f32, slots_len: usize,
        max_rate: f64, input: f32, delay: f64, quality: u8, playback_rate: f64, sample: &mut f32, unwritten: &mut u64, ahead: &mut u64, overwritten: &mut u64,
    ) -> u8;
}

/// Wraps each call, and the one that tells its absent taps: the refusal's number comes back, 0 for none.
macro_rules! over_rooms {
    ($($symbol:ident as $name:ident, $symbol_told:ident as $told:ident($($rate:ident)?);)*) => {
        impl QualityReader {
            $(
                #[inline]
                #[allow(clippy::too_many_arguments)]
                pub fn $name(
                    &mut self, by: Caller, room: RoomRead, max_rate: f64, input: f32, delay: f64, quality: u8,
                    $($rate: f64,)? sample: &mut f32,
                ) -> u8 {
                    unsafe {
                        $symbol(
                            by.desk, by.mode, self.maximum, self.margin, &mut self.accepted, &mut self.current,
                            &mut self.target, &mut self.crossfade_position, self.crossfade_samples, self.rule,
                            &mut self.direction, self.ring.as_mut_ptr(), self.ring.len(), room.rates.as_ptr(),
                            room.rates.len(), room.marks.as_ptr(), room.marks.len(), room.slots.as_ptr(),
                            room.slots.len(), max_rate, input, delay, quality, $($rate,)? sample,
                        )
                    }
                }
                #[inline]
                #[allow(clippy::too_many_arguments)]
                pub fn $told(
                    &mut self, by: Caller, room: RoomRead, max_rate: f64, input: f32, delay: f64, quality: u8,
                    $($rate: f64,)? sample: &mut f32, a: &mut Absent,
                ) -> u8 {
                    let (u, h, o) = (&mut a.unwritten, &mut a.ahead, &mut a.overwritten);
                    unsafe {
                        $symbol_told(
                            by.desk, by.mode, self.maximum, self.margin, &mut self.accepted, &mut self.current,
                            &mut self.target, &mut self.crossfade_position, self.crossfade_samples, self.rule,
                            &mut self.direction, self.ring.as_mut_ptr(), self.ring.len(), room.rates.as_ptr(),
                            room.rates.len(), room.marks.as_ptr(), room.marks.len(), room.slots.as_ptr(),
                            room.slots.len(), max_rate, input, delay, quality, $($rate,)? sample, u, h, o,
                        )
                    }
                }
            )*
        }
    };
}

over_rooms! {
    fugnadri_desk_process as desk_process, fugnadri_desk_process_told as desk_process_told();
    fugnadri_desk_process_rate_aware as desk_process_rate_aware,
        fugnadri_desk_process_rate_aware_told as desk_process_rate_aware_told(playback_rate);
}
