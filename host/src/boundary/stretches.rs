//! Whole stretches of the f64 delay readers: one call for slices of inputs and delays. Those of the kernels without a
//! table stand in kernels.rs.

use super::{readers::Reader, told::Absent};

#[rustfmt::skip]
extern "C" {
    fn fugnadri_windowed_sinc_stretch(
        maximum: usize, margin: usize, accepted: &mut u64, ring: *mut f64, ring_len: usize,
        inputs: *const f64, inputs_len: usize, delays: *const f64, delays_len: usize,
        table: *const f64, table_len: usize, taps: usize, phases: usize,
        out: *mut f64, out_len: usize, done: &mut usize,
    ) -> u8;
    fn fugnadri_windowed_sinc_stretch_told(
        maximum: usize, margin: usize, accepted: &mut u64, ring: *mut f64, ring_len: usize,
        inputs: *const f64, inputs_len: usize, delays: *const f64, delays_len: usize,
        table: *const f64, table_len: usize, taps: usize, phases: usize,
        out: *mut f64, out_len: usize, done: &mut usize, unwritten: &mut u64, ahead: &mut u64, overwritten: &mut u64,
    ) -> u8;
}

/// A stretch's two lent slices, and how many items are done.
pub struct Items<'a> {
    pub inputs: &'a [f64],
    pub delays: &'a [f64],
    pub done: usize,
}

/// A lent table with its settings.
#[derive(Clone, Copy)]
pub struct Lent<'a> {
    pub table: &'a [f64],
    pub taps: usize,
    pub phases: usize,
}

impl Reader {
    /// The refusal's number, 0 for none.
    #[inline]
    #[rustfmt::skip]
    pub fn sinc_stretch(&mut self, items: &mut Items, lent: Lent, out: &mut [f64]) -> u8 {
        let (ring, length) = (self.ring.as_mut_ptr(), self.ring.len());
        let Items { inputs: x, delays: y, done } = items;
        unsafe {
            fugnadri_windowed_sinc_stretch(
                self.maximum, self.margin, &mut self.accepted, ring, length, x.as_ptr(), x.len(), y.as_ptr(), y.len(),
                lent.table.as_ptr(), lent.table.len(), lent.taps, lent.phases, out.as_mut_ptr(), out.len(), done,
            )
        }
    }

    #[inline]
    #[rustfmt::skip]
    pub fn sinc_stretch_told(&mut self, items: &mut Items, lent: Lent, out: &mut [f64], a: &mut Absent) -> u8 {
        let (ring, length) = (self.ring.as_mut_ptr(), self.ring.len());
        let Items { inputs: x, delays: y, done } = items;
        let (u, h, o) = (&mut a.unwritten, &mut a.ahead, &mut a.overwritten);
        unsafe {
            fugnadri_windowed_sinc_stretch_told(
                self.maximum, self.margin, &mut self.accepted, ring, length, x.as_ptr(), x.len(), y.as_ptr(), y.len(),
                lent.table.as_ptr(), lent.table.len(), lent.taps, lent.phases, out.as_mut_ptr(), out.len(), done, u, h, o,
            )
        }
    }
}
