//! Why a call was refused: 01's numbers 1 to 8, and those of document 02's Wishes: 9 to 15, 18 and 19 of WAV files, 16 and
//! 17 of a room, 20 to 22 of AIFF.

use std::{error::Error, fmt};

/// Why a call was refused. Its state, its ring and its table are what they were before.
#[derive(Clone, Copy, Debug, Eq, Hash, PartialEq)]
#[repr(u8)]
pub enum Refusal {
    /// A setting or an argument is outside its range.
    Setting = 1,
    /// A lent ring or table has not the length that the settings need, or the slices of a stretch differ in length.
    Length = 2,
    /// A field of the state is outside its range.
    State = 3,
    /// The input sample is NaN or infinite.
    Input = 4,
    /// The delay is NaN, infinite or below zero.
    Delay = 5,
    /// The delay is above 2^36.
    LongDelay = 6,
    /// The playback rate is NaN.
    Rate = 7,
    /// 2^36 samples were accepted already.
    Full = 8,
    /// The file is not RIFF WAVE, or its RIFF size is under 4.
    NotWave = 9,
    /// A chunk of the file, or its RIFF or FORM, runs past the end.
    Overrun = 10,
    /// The file has no `fmt ` before its first `data`.
    NoFormat = 11,
    /// The file has no `data`.
    NoData = 12,
    /// The samples are of a kind that is not read or written, or the file's sizes do not agree.
    Kind = 13,
    /// The buffer is shorter than the file that is to be written.
    Room = 14,
    /// A sample that is to be written is out of range or NaN.
    Sample = 15,
    /// Every slot of the room is held, and none has this rate and mode.
    AllHeld = 16,
    /// The desk does not hold the set that it gives up.
    NotHeld = 17,
    /// The RF64 or BW64 file's `ds64` is missing or not first.
    NoSizes = 18,
    /// A size in the file's `ds64`, or of the samples that are to be written, is above 2^40 bytes.
    LargeSize = 19,
    /// The file is not AIFF, or its FORM size is under 4.
    NotAiff = 20,
    /// The AIFF's `COMM` or `SSND` is missing or too short, its offset lies past the end, or it has fewer frames than
    /// it says.
    Sound = 21,
    /// The AIFF's rate is not a whole number from 8000 to 768000.
    SoundRate = 22,
}

use Refusal::*;

impl Refusal {
    pub fn number(self) -> u8 {
        self as u8
    }

    /// The number that an exported function hands back, 0 for none.
    pub(crate) fn of(number: u8) -> Result<(), Refusal> {
        Err(match number {
            0 => return Ok(()),
            1 => Setting,
            2 => Length,
            3 => State,
            4 => Input,
            5 => Delay,
            6 => LongDelay,
            7 => Rate,
            8 => Full,
            9 => NotWave,
            10 => Overrun,
            11 => NoFormat,
            12 => NoData,
            13 => Kind,
            14 => Room,
            15 => Sample,
            16 => AllHeld,
            17 => NotHeld,
            18 => NoSizes,
            19 => LargeSize,
            20 => NotAiff,
            21 => Sound,
            22 => SoundRate,
            other => unreachable!(
                "the static libraries refuse by 1 to 22, not by {other}: this crate was written for others"
            ),
        })
    }
}

impl fmt::Display for Refusal {
    fn fmt(&self, f: &mut fmt::Formatter) -> fmt::Result {
        let why = match self {
            Setting => "a setting or an argument is outside its range: fugnadri.h lists the ranges; choose one inside",
            Length => "a lent ring or table has not the length that its settings need, or a stretch's slices differ in length: lend exactly that length",
            State => "a field of the state is outside its range: hand the state on as the last call left it",
            Input => "the input sample is NaN or infinite: leave it out or replace it, then go on with this reader",
            Delay => "the delay is NaN, infinite or below zero: give one from 0 on",
            LongDelay => "the delay is above 2^36 samples: give a shorter one",
            Rate => "the playback rate is NaN: give a number; one out of range is clamped",
            Full => "2^36 samples were accepted already: reset the reader",
            NotWave => "the file is not RIFF WAVE: hand in a WAV file from its first byte on",
            Overrun => "the file ends before its chunks do: it is cut off or its sizes are wrong; copy it again",
            NoFormat => "the file does not say what its samples are, before them: save it anew as WAV",
            NoData => "the file has no samples: save it anew as WAV",
            Kind => {
                "the file's samples are of another kind, or its sizes do not agree (`wav::told` or `aiff::told` says \
                 what it tells): save it as PCM of 16 or 24 bits or float of 32, one or two channels"
            }
            Room => "the buffer is shorter than the file: lend as many bytes as `wav::file_length` says",
            AllHeld => "every slot of the room is held, and none has this rate and mode: give up a set, or lend more slots",
            NotHeld => "the desk does not hold this set: it holds one from its grant on until it gives it up",
            NoSizes => "the RF64 file's `ds64` is missing or not its first chunk: save the transfer anew",
            LargeSize => "a size of the file is above 2^40 bytes: cut the side in two",
            NotAiff => "the file is not AIFF: hand in an AIFF file from its first byte on, and no AIFC",
            Sound => {
                "the file does not say what its samples are, or has fewer of them than it says (`aiff::told` says what \
                 it tells): save it anew as AIFF"
            }
            SoundRate => "the file's rate is not a whole number from 8000 to 768000: save it anew at such a rate",
            Sample => {
                "a sample is NaN, or does not fit once it is rounded (PCM holds -1 to just below 1): \
                 make the samples quieter, or write float of 32"
            }
        };
        write!(f, "refused by {}: {why}", self.number())
    }
}

impl Error for Refusal {}
