//! A desk's reader: the reader whose quality may change, over a room of tables that two desks share.

use crate::{
    boundary,
    boundary::{Absent, Caller},
    quality_mode::QualityMode,
    strict::Fading,
    Mode, Refusal,
};

pub use crate::boundary::RoomRead;

/// Which of the two desks that share a room. An exported function is handed its number.
#[derive(Clone, Copy, Debug, Eq, PartialEq)]
#[repr(u8)]
pub enum Desk {
    One = 1,
    Two = 2,
}

/// How many floats a slot of a room has: those of one set.
pub const SET_LENGTH: usize = 1_081_648;

/// Builds the set of a rate from 1 to 2 in a slot. Refused by 1 or 2, and then nothing is written.
pub fn build_set(rate: f64, mode: Mode, slot: &mut [f32]) -> Result<(), Refusal> {
    Refusal::of(boundary::bank_build_set_in(rate, mode as u8, slot))
}

/// Reads the sets that its desk holds in a room in its mode. As long as the desk holds the two sets that a call reads, it
/// answers as the quality reader does over a bank for `max_rate`; otherwise a call is refused by 2, in Draft also. What
/// the other desk holds, asks for or gives up does not show.
pub struct DeskDelay {
    reader: Fading,
    by: Caller,
    max_rate: f64,
}

impl DeskDelay {
    /// Refused by 1 where the ring would be longer than 2^24, or the fade longer than 2^24 samples. `max_rate` is the
    /// bank's whose sets the desk asks for; a call is refused by 1 where it is not from 1 to 2.
    pub fn new(
        desk: Desk,
        mode: Mode,
        max_rate: f64,
        max_delay_samples: usize,
        kernel_margin: usize,
        quality: QualityMode,
        crossfade_samples: u32,
    ) -> Result<Self, Refusal> {
        let reader = Fading::new(max_delay_samples, kernel_margin, quality, crossfade_samples)?;
        Ok(Self { reader, by: Caller { desk: desk as u8, mode: mode as u8 }, max_rate })
    }

    /// The same by the rule that goes back without a jump.
    pub fn new_returning(
        desk: Desk,
        mode: Mode,
        max_rate: f64,
        max_delay_samples: usize,
        kernel_margin: usize,
        quality: QualityMode,
        crossfade_samples: u32,
    ) -> Result<Self, Refusal> {
        let reader = Fading::new_returning(max_delay_samples, kernel_margin, quality, crossfade_samples)?;
        Ok(Self { reader, by: Caller { desk: desk as u8, mode: mode as u8 }, max_rate })
    }

    /// Reads at the maximum rate. Refused by 1 to 6 or 8, by 3 where the room is outside its ranges; a refused call
    /// forgets the quality that it asked for.
    #[inline]
    pub fn process_sample(
        &mut self,
        room: RoomRead<'_>,
        input: f32,
        delay_samples: f64,
        requested_quality: QualityMode,
    ) -> Result<f32, Refusal> {
        let mut sample = 0.0;
        let quality = requested_quality as u8;
        let reader = &mut self.reader.0;
        let number = reader.desk_process(self.by, room, self.max_rate, input, delay_samples, quality, &mut sample);
        Refusal::of(number).map(|()| sample)
    }

    /// Reads at a rate of its own, clamped from 1 to the maximum. Refused by 7 too, where the rate is NaN.
    #[inline]
    pub fn process_sample_rate_aware(
        &mut self,
        room: RoomRead<'_>,
        input: f32,
        delay_samples: f64,
        requested_quality: QualityMode,
        playback_rate: f64,
    ) -> Result<f32, Refusal> {
        let mut sample = 0.0;
        let quality = requested_quality as u8;
        let number = self.reader.0.desk_process_rate_aware(
            self.by,
            room,
            self.max_rate,
            input,
            delay_samples,
            quality,
            playback_rate,
            &mut sample,
        );
        Refusal::of(number).map(|()| sample)
    }

    /// `process_sample` with the number of its absent taps, by kind: those of every reading that it makes; three zeros
    /// if it is refused.
    pub fn process_sample_told(
        &mut self,
        room: RoomRead<'_>,
        input: f32,
        delay_samples: f64,
        requested_quality: QualityMode,
    ) -> (Result<f32, Refusal>, Absent) {
        let (mut sample, mut absent) = (0.0, Absent::default());
        let number = self.reader.0.desk_process_told(
            self.by,
            room,
            self.max_rate,
            input,
            delay_samples,
            requested_quality as u8,
            &mut sample,
            &mut absent,
        );
        (Refusal::of(number).map(|()| sample), absent)
    }

    /// `process_sample_rate_aware` with them.
    pub fn process_sample_rate_aware_told(
        &mut self,
        room: RoomRead<'_>,
        input: f32,
        delay_samples: f64,
        requested_quality: QualityMode,
        playback_rate: f64,
    ) -> (Result<f32, Refusal>, Absent) {
        let (mut sample, mut absent) = (0.0, Absent::default());
        let number = self.reader.0.desk_process_rate_aware_told(
            self.by,
            room,
            self.max_rate,
            input,
            delay_samples,
            requested_quality as u8,
            playback_rate,
            &mut sample,
            &mut absent,
        );
        (Refusal::of(number).map(|()| sample), absent)
    }

    pub fn reset(&mut self) {
        self.reader.reset();
    }
}
