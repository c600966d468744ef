//! NaNs of the oversampled readers and their filters.

use super::Made;
use boundary::{Absent, Cascaded, Named, Oversampled};

impl Made {
    /// Histories of what is odd under coefficients of both signs, a sample that is odd, and odd coefficients.
    pub fn filters(&mut self, odd: f64) {
        let plain: Vec<f64> = [0.25, -0.5].into_iter().cycle().take(33).collect();
        for factor in [1, 2, 4] {
            let history = vec![odd; boundary::filter_history(33, factor)];
            let phases = if factor == 4 { [0, 2] } else { [0, factor - 1] };
            for phase in phases {
                // a phase of one sign: infinities of one sign have an infinite sum, and no NaN
                let one_sign = factor != 1 && odd.is_infinite();
                let coefficients = if one_sign { vec![f64::NAN; 33] } else { plain.clone() };
                self.nan("filter_output", boundary::filter_output(&coefficients, &history, 7, factor, phase));
                let (mut first, mut second) = (0.0, 0.0);
                boundary::filter_outputs(&[f64::NAN; 33], &history, 7, factor, phase, &mut first, &mut second);
                self.nan("filter_outputs", first);
                self.nan("filter_outputs", second);
            }
        }
        if odd.is_nan() {
            let mut history = [0.0; 3];
            boundary::filter_push(&mut history, 0, odd);
            self.nan("filter_push", history[1]);
        }
    }

    /// Readers whose last filter holds nothing else, under coefficients of both signs.
    pub fn oversampled(&mut self, odd: f64) {
        let signs = |n| [0.25, -0.5].into_iter().cycle().take(n).collect::<Vec<f64>>();
        let zeros = |n| vec![0.0; n];
        let direct = |factor: usize| Oversampled {
            maximum: 8,
            margin: 0,
            factor,
            taps: 33,
            coefficients: signs(33),
            up: zeros(33usize.div_ceil(factor)),
            down: vec![odd; 33],
            ring: zeros((8 * factor + 8).next_power_of_two()),
            ..Default::default()
        };
        let cascade = || Cascaded {
            maximum: 8,
            halfband: signs(65),
            last: signs(129),
            up1: zeros(33),
            up2: zeros(33),
            down2: zeros(65),
            down1: vec![odd; 129],
            ring: zeros(64),
            ..Default::default()
        };
        let (cubic, a) = (Named { kernel: 0, points: 0, phases: 0, table: &[] }, &mut Absent::default());
        for factor in [2, 4] {
            self.by("oversampled_process", |v| direct(factor).process(cubic, 0.5, 3.0, v));
            self.by("oversampled_process_told", |v| direct(factor).process_told(cubic, 0.5, 3.0, v, a));
        }
        self.by("cascaded_process", |v| cascade().process(cubic, 0.5, 3.0, v));
        self.by("cascaded_process_told", |v| cascade().process_told(cubic, 0.5, 3.0, v, a));
    }
}
