//! The delay readers' state, and what opens and resets it.

/// A reader's numbers beside its ring: what every call is handed.
#[derive(Clone)]
pub struct Reader {
    pub maximum: usize,
    pub margin: usize,
    pub accepted: u64,
    pub ring: Vec<f64>,
}

#[rustfmt::skip]
extern "C" {
    pub(crate) fn fugnadri_open(maximum: usize, margin: usize, accepted: &mut u64, ring: *mut f64, ring_len: usize) -> u8;
    pub(crate) fn fugnadri_reset(maximum: usize, margin: usize, accepted: &mut u64, ring: *mut f64, ring_len: usize) -> u8;
}

impl Reader {
    /// The refusal's number, 0 for none.
    #[inline]
    pub fn open(&mut self) -> u8 {
        let (ring, length) = (self.ring.as_mut_ptr(), self.ring.len());
        unsafe { fugnadri_open(self.maximum, self.margin, &mut self.accepted, ring, length) }
    }

    #[inline]
    pub fn reset(&mut self) -> u8 {
        let (ring, length) = (self.ring.as_mut_ptr(), self.ring.len());
        unsafe { fugnadri_reset(self.maximum, self.margin, &mut self.accepted, ring, length) }
    }
}
