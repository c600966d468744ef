//! The oversampled readers' calls that tell how many taps of their inner readings were absent, by kind.

use super::{
    oversampled::{Cascaded, Named, Oversampled},
    told::Absent,
};

#[rustfmt::skip]
extern "C" {
    fn fugnadri_oversampled_process_told(
        maximum: usize, margin: usize, factor: usize, taps: usize,
        accepted: &mut u64, inner: &mut u64, previous: &mut f64,
        kernel: u8, points: usize, phases: usize, table: *const f64, table_len: usize,
        coefficients: *const f64, coefficients_len: usize, up: *mut f64, up_len: usize, down: *mut f64, down_len: usize,
        ring: *mut f64, ring_len: usize, input: f64, delay: f64, sample: &mut f64,
        unwritten: &mut u64, ahead: &mut u64, overwritten: &mut u64,
    ) -> u8;
    fn fugnadri_cascaded_process_told(
        maximum: usize, margin: usize, accepted: &mut u64, inner: &mut u64, previous: &mut f64,
        kernel: u8, points: usize, phases: usize, table: *const f64, table_len: usize,
        halfband: *const f64, halfband_len: usize, last: *const f64, last_len: usize, up1: *mut f64, up1_len: usize,
        up2: *mut f64, up2_len: usize, down2: *mut f64, down2_len: usize, down1: *mut f64, down1_len: usize,
        ring: *mut f64, ring_len: usize, input: f64, delay: f64, sample: &mut f64,
        unwritten: &mut u64, ahead: &mut u64, overwritten: &mut u64,
    ) -> u8;
}

#[rustfmt::skip]
impl Oversampled {
    /// `process`, with the sums over its inner readings; three zeros if it is refused.
    pub fn process_told(&mut self, k: Named, input: f64, delay: f64, sample: &mut f64, a: &mut Absent) -> u8 {
        unsafe {
            fugnadri_oversampled_process_told(
                self.maximum, self.margin, self.factor, self.taps,
                &mut self.accepted, &mut self.inner, &mut self.previous,
                k.kernel, k.points, k.phases, k.table.as_ptr(), k.table.len(),
                self.coefficients.as_ptr(), self.coefficients.len(), self.up.as_mut_ptr(), self.up.len(),
                self.down.as_mut_ptr(), self.down.len(), self.ring.as_mut_ptr(), self.ring.len(), input, delay, sample,
                &mut a.unwritten, &mut a.ahead, &mut a.overwritten,
            )
        }
    }
}

#[rustfmt::skip]
impl Cascaded {
    /// `process`, with the sums over its inner readings; three zeros if it is refused.
    pub fn process_told(&mut self, k: Named, input: f64, delay: f64, sample: &mut f64, a: &mut Absent) -> u8 {
        unsafe {
            fugnadri_cascaded_process_told(
                self.maximum, self.margin, &mut self.accepted, &mut self.inner, &mut self.previous,
                k.kernel, k.points, k.phases, k.table.as_ptr(), k.table.len(),
                self.halfband.as_ptr(), self.halfband.len(), self.last.as_ptr(), self.last.len(),
                self.up1.as_mut_ptr(), self.up1.len(), self.up2.as_mut_ptr(), self.up2.len(),
                self.down2.as_mut_ptr(), self.down2.len(), self.down1.as_mut_ptr(), self.down1.len(),
                self.ring.as_mut_ptr(), self.ring.len(), input, delay, sample,
                &mut a.unwritten, &mut a.ahead, &mut a.overwritten,
            )
        }
    }
}
