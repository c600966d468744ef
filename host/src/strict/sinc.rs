//! The kernels that read a table: each owns its own, which is built when it is made.

use super::table::Table;
use crate::{
    boundary::{
        sinc_f32_process_told, sinc_f32_stretch, sinc_f32_stretch_told, sinc_process_told, Absent, Items, ItemsF32, Lent,
        LentF32, Named, Reader, Width,
    },
    doors::{Door, DoorF32, ReaderF32},
    Mode, Refusal,
};

/// Dense phase-table, Kaiser-windowed sinc interpolator.
pub struct WindowedSinc {
    pub(crate) table: Table<f64>,
    pub(crate) cutoff: f64,
}

impl WindowedSinc {
    /// Taps even, 4 to 128; phases 2 to 4096; cutoff 1/1024 to 1; beta 0 to 20: else refused by 1.
    pub fn new(taps: usize, phases: usize, cutoff: f64, beta: f64) -> Result<Self, Refusal> {
        Self::new_in(taps, phases, cutoff, beta, Mode::Ported)
    }

    /// The same, its window by the sum called I0 in a mode.
    pub fn new_in(taps: usize, phases: usize, cutoff: f64, beta: f64, mode: Mode) -> Result<Self, Refusal> {
        Ok(Self { table: Table::new(taps, phases, cutoff, beta, mode)?, cutoff })
    }

    /// Rate 1 to 2, passband above 0 to 1, and their quotient, the cutoff, in its range: else refused by 1.
    pub fn for_max_rate(taps: usize, phases: usize, max_rate: f64, passband: f64, beta: f64) -> Result<Self, Refusal> {
        Self::for_max_rate_in(taps, phases, max_rate, passband, beta, Mode::Ported)
    }

    /// The same, its window by the sum called I0 in a mode.
    #[rustfmt::skip]
    pub fn for_max_rate_in(
        taps: usize, phases: usize, max_rate: f64, passband: f64, beta: f64, mode: Mode,
    ) -> Result<Self, Refusal> {
        let table = Table::for_max_rate(taps, phases, max_rate, passband, beta, mode)?;
        Ok(Self { table, cutoff: passband / max_rate })
    }

    pub fn taps(&self) -> usize {
        self.table.taps
    }
    pub fn phases(&self) -> usize {
        self.table.phases
    }
    pub fn cutoff(&self) -> f64 {
        self.cutoff
    }
    pub fn mode(&self) -> Mode {
        self.table.mode
    }
}

impl Door for WindowedSinc {
    fn taps(&self) -> usize {
        self.table.taps
    }
    fn called(&self) -> &'static str {
        "windowed-sinc"
    }
    #[inline]
    fn process(&self, r: &mut Reader, input: f64, delay: f64, sample: &mut f64) -> u8 {
        let Table { taps, phases, values, .. } = &self.table;
        f64::sinc_process(
            r.maximum,
            r.margin,
            &mut r.accepted,
            &mut r.ring,
            input,
            delay,
            values,
            *taps,
            *phases,
            sample,
        )
    }
    #[rustfmt::skip]
    fn process_told(&self, r: &mut Reader, input: f64, delay: f64, sample: &mut f64, absent: &mut Absent) -> u8 {
        let Table { taps, phases, values, .. } = &self.table;
        let (accepted, ring) = (&mut r.accepted, &mut r.ring);
        sinc_process_told(r.maximum, r.margin, accepted, ring, input, delay, values, *taps, *phases, sample, absent)
    }
    fn stretch(&self, reader: &mut Reader, items: &mut Items, out: &mut [f64]) -> u8 {
        let Table { taps, phases, values, .. } = &self.table;
        reader.sinc_stretch(items, Lent { table: values, taps: *taps, phases: *phases }, out)
    }
    fn stretch_told(&self, reader: &mut Reader, items: &mut Items, out: &mut [f64], absent: &mut Absent) -> u8 {
        let Table { taps, phases, values, .. } = &self.table;
        reader.sinc_stretch_told(items, Lent { table: values, taps: *taps, phases: *phases }, out, absent)
    }
    fn read(&self, source: &[f64], count: u64, position: f64, sample: &mut f64) -> u8 {
        let Table { taps, phases, values, .. } = &self.table;
        f64::sinc_sample(values, *taps, *phases, source, count, position, sample)
    }
    fn named(&self) -> Named<'_> {
        let Table { taps, phases, values, .. } = &self.table;
        Named { kernel: 3, points: *taps, phases: *phases, table: values }
    }
}

/// The table rounded once to f32.
pub struct WindowedSincF32 {
    pub(crate) table: Table<f32>,
}

impl WindowedSincF32 {
    /// As `WindowedSinc::new`.
    pub fn new(taps: usize, phases: usize, cutoff: f64, beta: f64) -> Result<Self, Refusal> {
        Self::new_in(taps, phases, cutoff, beta, Mode::Ported)
    }

    /// As `WindowedSinc::new_in`.
    pub fn new_in(taps: usize, phases: usize, cutoff: f64, beta: f64, mode: Mode) -> Result<Self, Refusal> {
        Ok(Self { table: Table::new(taps, phases, cutoff, beta, mode)? })
    }

    /// As `WindowedSinc::for_max_rate`.
    pub fn for_max_rate(taps: usize, phases: usize, max_rate: f64, passband: f64, beta: f64) -> Result<Self, Refusal> {
        Self::for_max_rate_in(taps, phases, max_rate, passband, beta, Mode::Ported)
    }

    /// As `WindowedSinc::for_max_rate_in`.
    #[rustfmt::skip]
    pub fn for_max_rate_in(
        taps: usize, phases: usize, max_rate: f64, passband: f64, beta: f64, mode: Mode,
    ) -> Result<Self, Refusal> {
        Ok(Self { table: Table::for_max_rate(taps, phases, max_rate, passband, beta, mode)? })
    }

    pub fn mode(&self) -> Mode {
        self.table.mode
    }
}

impl DoorF32 for WindowedSincF32 {
    fn taps(&self) -> usize {
        self.table.taps
    }
    #[inline]
    fn process(&self, r: &mut ReaderF32, input: f32, delay: f64, sample: &mut f32) -> u8 {
        let Table { taps, phases, values, .. } = &self.table;
        f32::sinc_process(
            r.maximum,
            r.margin,
            &mut r.accepted,
            &mut r.ring,
            input,
            delay,
            values,
            *taps,
            *phases,
            sample,
        )
    }
    #[rustfmt::skip]
    fn process_told(&self, r: &mut ReaderF32, input: f32, delay: f64, sample: &mut f32, absent: &mut Absent) -> u8 {
        let Table { taps, phases, values, .. } = &self.table;
        let (accepted, ring) = (&mut r.accepted, &mut r.ring);
        sinc_f32_process_told(r.maximum, r.margin, accepted, ring, input, delay, values, *taps, *phases, sample, absent)
    }
    fn stretch(&self, r: &mut ReaderF32, items: &mut ItemsF32, out: &mut [f32]) -> u8 {
        let Table { taps, phases, values, .. } = &self.table;
        let lent = LentF32 { table: values, taps: *taps, phases: *phases };
        sinc_f32_stretch(r.maximum, r.margin, &mut r.accepted, &mut r.ring, items, lent, out)
    }
    fn stretch_told(&self, r: &mut ReaderF32, items: &mut ItemsF32, out: &mut [f32], absent: &mut Absent) -> u8 {
        let Table { taps, phases, values, .. } = &self.table;
        let lent = LentF32 { table: values, taps: *taps, phases: *phases };
        sinc_f32_stretch_told(r.maximum, r.margin, &mut r.accepted, &mut r.ring, items, lent, out, absent)
    }
    fn read(&self, source: &[f32], count: u64, position: f64, sample: &mut f32) -> u8 {
        let Table { taps, phases, values, .. } = &self.table;
        f32::sinc_sample(values, *taps, *phases, source, count, position, sample)
    }
}
