//! NaNs of whole stretches: a ring or a table that holds nothing else, as for the single calls.

use super::Made;
use boundary::{Exports, Items, Lent, Reader, KERNELS};

impl Made {
    pub fn stretches(&mut self, odd: f64) {
        let reader = |held| Reader { maximum: 8, margin: 0, accepted: 40, ring: vec![held; 16] };
        let (inputs, delays) = ([0.5], [6.3]);
        let items = || Items { inputs: &inputs, delays: &delays, done: 0 };
        let one = std::slice::from_mut::<f64>;
        for Exports { name, stretch, .. } in KERNELS {
            for taps in [4, 6, 8, 16] {
                self.by(&format!("{name}_stretch"), |v| stretch(&mut reader(odd), &mut items(), taps, one(v)));
            }
        }
        let (taps, phases) = (8, 4);
        let plain: Vec<f64> = [1.0, -1.0].into_iter().cycle().take(taps * (phases + 1)).collect();
        for (table, held) in [(plain, odd), (vec![odd; taps * (phases + 1)], 1.0)] {
            let lent = || Lent { table: &table, taps, phases };
            self.by("windowed_sinc_stretch", |v| reader(held).sinc_stretch(&mut items(), lent(), one(v)));
        }
    }
}
