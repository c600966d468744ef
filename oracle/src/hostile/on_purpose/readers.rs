//! NaNs of the readers and the kernels, without a table and with one.

use super::{Made, Value};
use boundary::{sinc_f32_process_told, sinc_process_told, Absent, Exports, Reader, Width, KERNELS};

impl Made {
    /// Rings and slices that hold nothing else: the weights have both signs, so that infinities make a NaN too.
    pub fn readers(&mut self, odd: f64) {
        let reader = || Reader { maximum: 8, margin: 0, accepted: 40, ring: vec![odd; 16] };
        let source = [odd; 16];
        let a = &mut Absent::default();
        for Exports { name, process, process_bits, process_told, sample, sample_bits, .. } in KERNELS {
            for taps in [4, 6, 8, 16] {
                self.by(&format!("{name}_process"), |v| process(&mut reader(), 0.5, 6.3, taps, v));
                self.by(&format!("{name}_process_bits"), |v| process_bits(&mut reader(), 0.5, 6.3, taps, v));
                self.by(&format!("{name}_sample"), |v| sample(&source, 16, 7.3, taps, v));
                self.by(&format!("{name}_sample_bits"), |v| sample_bits(&source, 16, 7.3, taps, v));
            }
            self.by(&format!("{name}_process_told"), |v| process_told(&mut reader(), 0.5, 6.3, 6, v, a));
        }
        let (ring, single) = (&mut [odd; 16], &mut [odd as f32; 16]);
        let table: Vec<f64> = [1.0, -1.0].into_iter().cycle().take(40).collect();
        let narrow: Vec<f32> = table.iter().map(|x| *x as f32).collect();
        self.by("windowed_sinc_process_told", |v| sinc_process_told(8, 0, &mut 40, ring, 0.5, 6.3, &table, 8, 4, v, a));
        self.by("windowed_sinc_f32_process_told", |v| {
            sinc_f32_process_told(8, 0, &mut 40, single, 0.5, 6.3, &narrow, 8, 4, v, a)
        });
    }

    /// A table of 1 and -1 over what is odd, and a table of what is odd over samples of 1: it is lent as such.
    pub fn sinc<T: Width + Value>(&mut self, width: &str, odd: T, one: T, less: T)
    where
        T::Bits: Value,
    {
        let (taps, phases) = (8, 4);
        let plain: Vec<T> = [one, less].into_iter().cycle().take(taps * (phases + 1)).collect();
        for (table, held) in [(plain, odd), (vec![odd; taps * (phases + 1)], one)] {
            let name = |what: &str| format!("windowed_sinc{width}_{what}");
            let (source, ring) = ([held; 16], || vec![held; 16]);
            self.by(&name("sample"), |v| T::sinc_sample(&table, taps, phases, &source, 16, 7.3, v));
            self.by(&name("sample_bits"), |v| T::sinc_sample_bits(&table, taps, phases, &source, 16, 7.3, v));
            self.by(&name("process"), |v| {
                T::sinc_process(8, 0, &mut 40, &mut ring(), one, 6.3, &table, taps, phases, v)
            });
            self.by(&name("process_bits"), |v| {
                T::sinc_process_bits(8, 0, &mut 40, &mut ring(), one, 6.3, &table, taps, phases, v)
            });
        }
    }
}
