//! The oversampled readers, and their filters: the design, and one filter over a factor and a phase.

#[rustfmt::skip]
extern "C" {
    fn fugnadri_design_lowpass(taps: usize, cutoff: f64, beta: f64, out: *mut f64, out_len: usize) -> u8;
    fn fugnadri_filter_history(taps: usize, factor: usize) -> usize;
    fn fugnadri_filter_latency(taps: usize, factor: usize) -> f64;
    fn fugnadri_cascaded_latency() -> f64;
    fn fugnadri_filter_keep(coefficients: *mut f64, coefficients_len: usize);
    fn fugnadri_filter_push(history: *mut f64, history_len: usize, pushes: u64, input: f64);
    fn fugnadri_filter_output(
        coefficients: *const f64, coefficients_len: usize, history: *const f64, history_len: usize, pushes: u64, factor: usize, phase: usize,
    ) -> f64;
    fn fugnadri_filter_outputs(
        coefficients: *const f64, coefficients_len: usize, history: *const f64, history_len: usize, pushes: u64, factor: usize, phase: usize,
        first: &mut f64, second: &mut f64,
    );
}

/// 000's `design_lowpass` into a lent slice; the refusal's number, 0 for none.
pub fn design_lowpass(taps: usize, cutoff: f64, beta: f64, out: &mut [f64]) -> u8 {
    unsafe { fugnadri_design_lowpass(taps, cutoff, beta, out.as_mut_ptr(), out.len()) }
}

/// How many samples a filter holds, 0 where the taps or the factor is out of range. The decimating filter's factor is 1.
pub fn filter_history(taps: usize, factor: usize) -> usize {
    unsafe { fugnadri_filter_history(taps, factor) }
}

/// 000's `latency_samples`, 0.0 where the taps or the factor is out of range.
pub fn filter_latency(taps: usize, factor: usize) -> f64 {
    unsafe { fugnadri_filter_latency(taps, factor) }
}

/// The cascade's `latency_samples`.
pub fn cascaded_latency() -> f64 {
    unsafe { fugnadri_cascaded_latency() }
}

/// Writes 0.0 over the coefficients that 000's filters leave out.
pub fn filter_keep(coefficients: &mut [f64]) {
    unsafe { fugnadri_filter_keep(coefficients.as_mut_ptr(), coefficients.len()) }
}

/// 000's `push`, after so many pushes.
pub fn filter_push(history: &mut [f64], pushes: u64, input: f64) {
    unsafe { fugnadri_filter_push(history.as_mut_ptr(), history.len(), pushes, input) }
}

/// 000's `output` of a phase, after so many pushes.
pub fn filter_output(coefficients: &[f64], history: &[f64], pushes: u64, factor: usize, phase: usize) -> f64 {
    unsafe {
        fugnadri_filter_output(
            coefficients.as_ptr(),
            coefficients.len(),
            history.as_ptr(),
            history.len(),
            pushes,
            factor,
            phase,
        )
    }
}

/// `filter_output` of a phase and the next one, at a factor of 2 in one pass.
#[rustfmt::skip]
pub fn filter_outputs(coefficients: &[f64], history: &[f64], pushes: u64, factor: usize, phase: usize, first: &mut f64, second: &mut f64) {
    unsafe { fugnadri_filter_outputs(coefficients.as_ptr(), coefficients.len(), history.as_ptr(), history.len(), pushes, factor, phase, first, second) }
}

#[rustfmt::skip]
extern "C" {
    fn fugnadri_oversampled_open(
        maximum: usize, margin: usize, factor: usize, taps: usize,
        accepted: &mut u64, inner: &mut u64, previous: &mut f64,
        coefficients: *mut f64, coefficients_len: usize, up: *mut f64, up_len: usize, down: *mut f64, down_len: usize,
        ring: *mut f64, ring_len: usize,
    ) -> u8;
    fn fugnadri_oversampled_reset(
        maximum: usize, margin: usize, factor: usize, taps: usize,
        accepted: &mut u64, inner: &mut u64, previous: &mut f64,
        up: *mut f64, up_len: usize, down: *mut f64, down_len: usize, ring: *mut f64, ring_len: usize,
    ) -> u8;
    fn fugnadri_oversampled_process(
        maximum: usize, margin: usize, factor: usize, taps: usize,
        accepted: &mut u64, inner: &mut u64, previous: &mut f64,
        kernel: u8, points: usize, phases: usize, table: *const f64, table_len: usize,
        coefficients: *const f64, coefficients_len: usize, up: *mut f64, up_len: usize, down: *mut f64, down_len: usize,
        ring: *mut f64, ring_len: usize, input: f64, delay: f64, sample: &mut f64,
    ) -> u8;
    fn fugnadri_cascaded_open(
        maximum: usize, margin: usize, accepted: &mut u64, inner: &mut u64, previous: &mut f64,
        halfband: *mut f64, halfband_len: usize, last: *mut f64, last_len: usize, up1: *mut f64, up1_len: usize,
        up2: *mut f64, up2_len: usize, down2: *mut f64, down2_len: usize, down1: *mut f64, down1_len: usize,
        ring: *mut f64, ring_len: usize,
    ) -> u8;
    fn fugnadri_cascaded_reset(
        maximum: usize, margin: usize, accepted: &mut u64, inner: &mut u64, previous: &mut f64,
        up1: *mut f64, up1_len: usize, up2: *mut f64, up2_len: usize, down2: *mut f64, down2_len: usize,
        down1: *mut f64, down1_len: usize, ring: *mut f64, ring_len: usize,
    ) -> u8;
    fn fugnadri_cascaded_process(
        maximum: usize, margin: usize, accepted: &mut u64, inner: &mut u64, previous: &mut f64,
        kernel: u8, points: usize, phases: usize, table: *const f64, table_len: usize,
        halfband: *const f64, halfband_len: usize, last: *const f64, last_len: usize, up1: *mut f64, up1_len: usize,
        up2: *mut f64, up2_len: usize, down2: *mut f64, down2_len: usize, down1: *mut f64, down1_len: usize,
        ring: *mut f64, ring_len: usize, input: f64, delay: f64, sample: &mut f64,
    ) -> u8;
}

/// A kernel by its number: 0 Cubic, 1 Lagrange of so many points, 2 Farrow8, 3 the windowed sinc of so many points and
/// phases, whose table is lent. The other kernels have an empty table.
#[derive(Clone, Copy)]
pub struct Named<'a> {
    pub kernel: u8,
    pub points: usize,
    pub phases: usize,
    pub table: &'a [f64],
}

/// 000's OversampledVariableDelay: its numbers beside what every call is lent.
#[derive(Clone, Debug, Default)]
pub struct Oversampled {
    pub maximum: usize,
    pub margin: usize,
    pub factor: usize,
    pub taps: usize,
    pub accepted: u64,
    pub inner: u64,
    pub previous: f64,
    pub coefficients: Vec<f64>,
    pub up: Vec<f64>,
    pub down: Vec<f64>,
    pub ring: Vec<f64>,
}

/// Each method returns the refusal's number, 0 for none.
#[rustfmt::skip]
impl Oversampled {
    pub fn open(&mut self) -> u8 {
        unsafe {
            fugnadri_oversampled_open(
                self.maximum, self.margin, self.factor, self.taps,
                &mut self.accepted, &mut self.inner, &mut self.previous,
                self.coefficients.as_mut_ptr(), self.coefficients.len(), self.up.as_mut_ptr(), self.up.len(),
                self.down.as_mut_ptr(), self.down.len(), self.ring.as_mut_ptr(), self.ring.len(),
            )
        }
    }

    pub fn reset(&mut self) -> u8 {
        unsafe {
            fugnadri_oversampled_reset(
                self.maximum, self.margin, self.factor, self.taps,
                &mut self.accepted, &mut self.inner, &mut self.previous,
                self.up.as_mut_ptr(), self.up.len(), self.down.as_mut_ptr(), self.down.len(),
                self.ring.as_mut_ptr(), self.ring.len(),
            )
        }
    }

    pub fn process(&mut self, k: Named, input: f64, delay: f64, sample: &mut f64) -> u8 {
        unsafe {
            fugnadri_oversampled_process(
                self.maximum, self.margin, self.factor, self.taps,
                &mut self.accepted, &mut self.inner, &mut self.previous,
                k.kernel, k.points, k.phases, k.table.as_ptr(), k.table.len(),
                self.coefficients.as_ptr(), self.coefficients.len(), self.up.as_mut_ptr(), self.up.len(),
                self.down.as_mut_ptr(), self.down.len(), self.ring.as_mut_ptr(), self.ring.len(), input, delay, sample,
            )
        }
    }
}

/// 000's CascadedOversampledVariableDelay4x: its numbers beside what every call is lent.
#[derive(Clone, Debug, Default)]
pub struct Cascaded {
    pub maximum: usize,
    pub margin: usize,
    pub accepted: u64,
    pub inner: u64,
    pub previous: f64,
    pub halfband: Vec<f64>,
    pub last: Vec<f64>,
    pub up1: Vec<f64>,
    pub up2: Vec<f64>,
    pub down2: Vec<f64>,
    pub down1: Vec<f64>,
    pub ring: Vec<f64>,
}

/// Each method returns the refusal's number, 0 for none.
#[rustfmt::skip]
impl Cascaded {
    pub fn open(&mut self) -> u8 {
        unsafe {
            fugnadri_cascaded_open(
                self.maximum, self.margin, &mut self.accepted, &mut self.inner, &mut self.previous,
                self.halfband.as_mut_ptr(), self.halfband.len(), self.last.as_mut_ptr(), self.last.len(),
                self.up1.as_mut_ptr(), self.up1.len(), self.up2.as_mut_ptr(), self.up2.len(),
                self.down2.as_mut_ptr(), self.down2.len(), self.down1.as_mut_ptr(), self.down1.len(),
                self.ring.as_mut_ptr(), self.ring.len(),
            )
        }
    }

    pub fn reset(&mut self) -> u8 {
        unsafe {
            fugnadri_cascaded_reset(
                self.maximum, self.margin, &mut self.accepted, &mut self.inner, &mut self.previous,
                self.up1.as_mut_ptr(), self.up1.len(), self.up2.as_mut_ptr(), self.up2.len(),
                self.down2.as_mut_ptr(), self.down2.len(), self.down1.as_mut_ptr(), self.down1.len(),
                self.ring.as_mut_ptr(), self.ring.len(),
            )
        }
    }

    pub fn process(&mut self, k: Named, input: f64, delay: f64, sample: &mut f64) -> u8 {
        unsafe {
            fugnadri_cascaded_process(
                self.maximum, self.margin, &mut self.accepted, &mut self.inner, &mut self.previous,
                k.kernel, k.points, k.phases, k.table.as_ptr(), k.table.len(),
                self.halfband.as_ptr(), self.halfband.len(), self.last.as_ptr(), self.last.len(),
                self.up1.as_mut_ptr(), self.up1.len(), self.up2.as_mut_ptr(), self.up2.len(),
                self.down2.as_mut_ptr(), self.down2.len(), self.down1.as_mut_ptr(), self.down1.len(),
                self.ring.as_mut_ptr(), self.ring.len(), input, delay, sample,
            )
        }
    }
}
