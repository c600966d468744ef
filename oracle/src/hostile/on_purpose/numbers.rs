//! NaNs of the number functions, and of a file.

use super::Made;
use boundary as b;

impl Made {
    pub fn numbers(&mut self, odd: f64) {
        let (top, bits) = (f64::INFINITY, odd.to_bits());
        self.nan("narrow", b::narrow(odd));
        self.nan("narrow_bits", b::narrow_bits(bits));
        for (x, y, z) in [
            (odd, 1.0, 1.0),
            (1.0, odd, 1.0),
            (1.0, 1.0, odd),
            (odd, odd, odd),
            (top, 0.0, 1.0),
            (top, 1.0, -top),
            (0.0, top, odd),
        ] {
            self.nan("fused64", b::fused64(x, y, z));
            self.nan("fused64_bits", b::fused64_bits(x.to_bits(), y.to_bits(), z.to_bits()));
        }
        for x in [odd, -1.0, -top] {
            self.nan("square_root", b::square_root(x));
            self.nan("square_root_bits", b::square_root_bits(x.to_bits()));
        }
        self.nan("fraction", b::fraction(odd));
        self.nan("fraction_bits", b::fraction_bits(bits));
        self.nan("max", b::max(odd, odd));
        self.nan("min", b::min(odd, odd));
        self.nan("clamp", b::clamp(odd, -1.0, 1.0));
        self.nan("bits_of", b::bits_of(odd));
        self.nan("float_of", b::float_of(bits));
    }

    pub fn numbers32(&mut self, odd: f32) {
        let top = f32::INFINITY;
        for (x, y, z) in [
            (odd, 1.0, 1.0),
            (1.0, odd, 1.0),
            (1.0, 1.0, odd),
            (odd, odd, odd),
            (top, 0.0, 1.0),
            (top, 1.0, -top),
            (0.0, top, odd),
        ] {
            self.nan("fused32", b::fused32(x, y, z));
            self.nan("fused32_bits", b::fused32_bits(x.to_bits(), y.to_bits(), z.to_bits()));
        }
        self.nan("min_f32", b::min_f32(odd, odd));
        self.nan("clamp_f32", b::clamp_f32(odd, -1.0, 1.0));
        self.nan("bits_of_f32", b::bits_of_f32(odd));
        self.nan("float_of_f32", b::float_of_f32(odd.to_bits()));
    }

    /// A float file of one sample.
    pub fn file(&mut self, odd: f32) {
        let part = odd.to_bits().to_le_bytes();
        let (mut wide, mut single) = ([0.0], [0.0]);
        self.by("wav_samples", |v| (b::wav_samples(2, 1, 0, &part, &mut wide), *v = wide[0]).0);
        self.by("wav_samples_f32", |v| (b::wav_samples_f32(2, 1, 0, &part, &mut single), *v = single[0]).0);
    }
}
