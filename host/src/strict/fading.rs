//! A reader whose quality may change, and its ring.

use super::SincBankF32;
use crate::{
    boundary::{Absent, Asked, ItemsF32, QualityReader},
    doors::ring_length,
    quality_mode::QualityMode,
    Refusal, Stopped,
};

/// A quality reader without its bank, which each of the two ways holds as its own type.
pub(crate) struct Fading(pub(crate) QualityReader);

impl Fading {
    pub fn new(maximum: usize, margin: usize, quality: QualityMode, crossfade_samples: u32) -> Result<Self, Refusal> {
        Self::opened(maximum, margin, quality, crossfade_samples, QualityReader::open)
    }

    /// By the rule that goes back without a jump.
    pub fn new_returning(
        maximum: usize,
        margin: usize,
        quality: QualityMode,
        crossfade_samples: u32,
    ) -> Result<Self, Refusal> {
        Self::opened(maximum, margin, quality, crossfade_samples, QualityReader::open_returning)
    }

    fn opened(
        maximum: usize,
        margin: usize,
        quality: QualityMode,
        crossfade_samples: u32,
        open: fn(&mut QualityReader, u8) -> u8,
    ) -> Result<Self, Refusal> {
        let (current, ring) = (quality as u8, vec![0.0; ring_length(maximum, margin)]);
        let mut reader = QualityReader {
            maximum,
            margin,
            accepted: 0,
            current,
            target: current,
            crossfade_position: 0,
            crossfade_samples,
            rule: 0,
            direction: 0,
            ring,
        };
        Refusal::of(open(&mut reader, current))?;
        Ok(Self(reader))
    }

    #[inline]
    pub fn process(
        &mut self,
        bank: &SincBankF32,
        input: f32,
        delay: f64,
        quality: QualityMode,
    ) -> Result<f32, Refusal> {
        let mut sample = 0.0;
        let number = self.0.process(&bank.sets, bank.max_rate, input, delay, quality as u8, &mut sample);
        Refusal::of(number).map(|()| sample)
    }

    #[inline]
    pub fn process_rate_aware(
        &mut self,
        bank: &SincBankF32,
        input: f32,
        delay: f64,
        quality: QualityMode,
        rate: f64,
    ) -> Result<f32, Refusal> {
        let mut sample = 0.0;
        let number =
            self.0.process_rate_aware(&bank.sets, bank.max_rate, input, delay, quality as u8, rate, &mut sample);
        Refusal::of(number).map(|()| sample)
    }

    /// At a rate, or without one at the bank's own, with the absent taps of all that it reads.
    pub fn process_told(
        &mut self,
        bank: &SincBankF32,
        input: f32,
        delay: f64,
        quality: QualityMode,
        rate: Option<f64>,
    ) -> (Result<f32, Refusal>, Absent) {
        let (sets, max_rate, q) = (&bank.sets, bank.max_rate, quality as u8);
        let (mut sample, mut absent) = (0.0, Absent::default());
        let (v, a) = (&mut sample, &mut absent);
        let number = match rate {
            None => self.0.process_told(sets, max_rate, input, delay, q, v, a),
            Some(rate) => self.0.process_rate_aware_told(sets, max_rate, input, delay, q, rate, v, a),
        };
        (Refusal::of(number).map(|()| sample), absent)
    }

    pub fn stretch(
        &mut self,
        bank: &SincBankF32,
        mut items: ItemsF32,
        quality: QualityMode,
        playback_rate: f64,
        out: &mut [f32],
    ) -> Result<(), Stopped> {
        let asked = Asked { sets: &bank.sets, max_rate: bank.max_rate, quality: quality as u8, playback_rate };
        let number = self.0.stretch(&mut items, asked, out);
        Stopped::of(items.done, number)
    }

    /// The same with the absent taps of all items done.
    pub fn stretch_told(
        &mut self,
        bank: &SincBankF32,
        mut items: ItemsF32,
        quality: QualityMode,
        playback_rate: f64,
        out: &mut [f32],
    ) -> (Result<(), Stopped>, Absent) {
        let asked = Asked { sets: &bank.sets, max_rate: bank.max_rate, quality: quality as u8, playback_rate };
        let mut absent = Absent::default();
        let number = self.0.stretch_told(&mut items, asked, out, &mut absent);
        (Stopped::of(items.done, number), absent)
    }

    /// Never refused: the settings were accepted, and the state is the port's own.
    pub fn reset(&mut self) {
        let number = self.0.reset();
        debug_assert_eq!(number, 0);
    }
}
