//! NaNs of the reader whose quality may change.

use super::{fault, Made};
use boundary::{self as b, Absent, Caller, QualityReader, RoomRead};
use std::iter::repeat_with;

const ONE: Caller = Caller { desk: 1, mode: 0 };

/// The bank for 1.04 as a room that desk one holds.
fn room(bank: &[f32]) -> RoomRead<'_> {
    let sets = b::bank_steps(1.04);
    let rates: Vec<f64> = (0..sets).map(|set| b::bank_set_rate(1.04, set)).collect();
    RoomRead { rates: rates.leak(), marks: vec![1; sets].leak(), slots: bank }
}

pub fn bank(max_rate: f64) -> Vec<f32> {
    let mut sets = vec![0.0; b::bank_length(max_rate)];
    match b::bank_build(max_rate, &mut sets) {
        0 => sets,
        number => fault("bank_build", &format!("refused by {number}")),
    }
}

impl Made {
    /// A ring that holds nothing else, plain in each quality and in the midst of a fade from it.
    pub fn quality(&mut self, bank: &[f32], odd: f32, quality: u8) {
        for asked in [quality, (quality + 1) % 4] {
            let reader = || QualityReader {
                maximum: 1016,
                margin: 0,
                accepted: 4000,
                current: quality,
                target: quality,
                crossfade_position: 9,
                crossfade_samples: 9,
                rule: asked % 2,
                direction: 0,
                ring: vec![odd; 1024],
            };
            self.by("quality_process", |v| reader().process(bank, 1.04, 0.5, 500.3, asked, v));
            self.by("quality_process_bits", |v| reader().process_bits(bank, 1.04, 0.5, 500.3, asked, v));
            self.by("quality_process_rate_aware", |v| {
                reader().process_rate_aware(bank, 1.04, 0.5, 500.3, asked, 1.013, v)
            });
            self.by("desk_process", |v| reader().desk_process(ONE, room(bank), 1.04, 0.5, 500.3, asked, v));
            self.by("desk_process_rate_aware", |v| {
                reader().desk_process_rate_aware(ONE, room(bank), 1.04, 0.5, 500.3, asked, 1.013, v)
            });
            self.by("quality_process_rate_aware_bits", |v| {
                reader().process_rate_aware_bits(bank, 1.04, 0.5, 500.3, asked, 1.013, v)
            });
            let mut absent = Absent::default();
            self.by("quality_process_told", |v| reader().process_told(bank, 1.04, 0.5, 500.3, asked, v, &mut absent));
            self.by("quality_process_rate_aware_told", |v| {
                reader().process_rate_aware_told(bank, 1.04, 0.5, 500.3, asked, 1.013, v, &mut absent)
            });
            self.by("desk_process_told", |v| {
                reader().desk_process_told(ONE, room(bank), 1.04, 0.5, 500.3, asked, v, &mut absent)
            });
            self.by("desk_process_rate_aware_told", |v| {
                let (r, a) = (&mut reader(), &mut absent);
                r.desk_process_rate_aware_told(ONE, room(bank), 1.04, 0.5, 500.3, asked, 1.013, v, a)
            });
        }
    }

    /// Finite samples alone: from the call 101 on both sets of the blend read an infinity.
    pub fn overflow(&mut self, bank: &[f32]) {
        let mut opened = QualityReader {
            maximum: 1016,
            margin: 0,
            accepted: 0,
            current: 0,
            target: 0,
            crossfade_position: 0,
            crossfade_samples: 0,
            rule: 0,
            direction: 0,
            ring: vec![0.0; 1024],
        };
        if opened.open(2) != 0 {
            fault("quality_open", "refused");
        }
        let mut beside = opened.clone();
        let calls = repeat_with(|| {
            let (mut value, mut bits) = (0.0, 0);
            let number = opened.process_rate_aware(bank, 1.04, f32::MAX, 100.3, 2, 1.013, &mut value);
            (number, beside.process_rate_aware_bits(bank, 1.04, f32::MAX, 100.3, 2, 1.013, &mut bits), value, bits)
        });
        for (n, (number, again, value, bits)) in calls.take(102).enumerate() {
            if (number, again, value.is_nan()) != (0, 0, n == 101) {
                fault("quality_process_rate_aware", &format!("call {n}: {number}, {again}, {value}"));
            }
            if n == 101 {
                self.nan("quality_process_rate_aware", value);
                self.nan("quality_process_rate_aware_bits", bits);
            }
        }
    }
}
