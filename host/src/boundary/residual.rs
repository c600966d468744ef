//! The residual of two stretches of whole samples.

#[rustfmt::skip]
extern "C" {
    fn fugnadri_residual_compare(
        number: &mut u64, largest: &mut u32, placed: &mut u8, place: &mut u64, high: &mut u64, low: &mut u64,
        a: *const i32, a_len: usize, b: *const i32, b_len: usize,
    ) -> u8;
}

/// A report as its six numbers; the sum of squares is high * 2^64 + low.
#[derive(Clone, Copy, Debug, Default, PartialEq, Eq)]
pub struct ReportWords {
    pub number: u64,
    pub largest: u32,
    pub placed: u8,
    pub place: u64,
    pub high: u64,
    pub low: u64,
}

pub fn residual_compare(r: &mut ReportWords, a: &[i32], b: &[i32]) -> u8 {
    unsafe {
        fugnadri_residual_compare(
            &mut r.number, &mut r.largest, &mut r.placed, &mut r.place, &mut r.high, &mut r.low, a.as_ptr(), a.len(), b.as_ptr(), b.len(),
        )
    }
}
