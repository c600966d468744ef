//! A room of tables that two desks share: opening it, asking for a set, giving it up.

#[rustfmt::skip]
extern "C" {
    fn fugnadri_room_open(
        rates: *mut f64, rates_len: usize, marks: *mut u8, marks_len: usize, slots: *const f32, slots_len: usize,
    ) -> u8;
    fn fugnadri_room_ask(
        desk: u8, rate: f64, mode: u8, rates: *mut f64, rates_len: usize, marks: *mut u8, marks_len: usize, slots: *mut f32, slots_len: usize, slot: &mut usize,
    ) -> u8;
    fn fugnadri_room_give_up(
        desk: u8, rate: f64, mode: u8, rates: *const f64, rates_len: usize, marks: *mut u8, marks_len: usize, slots: *const f32, slots_len: usize,
    ) -> u8;
}

pub fn room_open(rates: &mut [f64], marks: &mut [u8], slots: &[f32]) -> u8 {
    unsafe {
        fugnadri_room_open(
            rates.as_mut_ptr(), rates.len(), marks.as_mut_ptr(), marks.len(), slots.as_ptr(), slots.len(),
        )
    }
}

/// `slot` is the number of the granted slot, 0 if refused.
pub fn room_ask(
    desk: u8, rate: f64, mode: u8, rates: &mut [f64], marks: &mut [u8], slots: &mut [f32], slot: &mut usize,
) -> u8 {
    unsafe {
        fugnadri_room_ask(
            desk, rate, mode, rates.as_mut_ptr(), rates.len(), marks.as_mut_ptr(), marks.len(), slots.as_mut_ptr(), slots.len(), slot,
        )
    }
}

pub fn room_give_up(desk: u8, rate: f64, mode: u8, rates: &[f64], marks: &mut [u8], slots: &[f32]) -> u8 {
    unsafe {
        fugnadri_room_give_up(
            desk, rate, mode, rates.as_ptr(), rates.len(), marks.as_mut_ptr(), marks.len(), slots.as_ptr(), slots.len(),
        )
    }
}
