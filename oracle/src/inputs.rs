//! Hostile inputs: the patterns from which they are made, over the format.

use crate::format::Format;
use crate::random::Random;

impl Random {
    pub fn coin(&mut self) -> bool {
        self.word() >> 63 == 1
    }

    pub fn pick<T: Copy>(&mut self, list: &[T]) -> T {
        list[(self.word() % list.len() as u64) as usize]
    }

    /// Digits of a number: any, or one digit set, or a run of ones from the top, so that products and
    /// sums fall on midpoints and beside them.
    pub fn digits(&mut self, format: &Format) -> u64 {
        let place = self.within(0, format.digits as i64);
        match self.within(0, 3) {
            0 => 1 << place >> 1,
            1 => (1 << format.digits) - (1 << place),
            _ => self.word() & format.all_digits(),
        }
    }

    /// A finite number of the exponent's field, or of the nearest that there is.
    pub fn at(&mut self, format: &Format, field: i64) -> u64 {
        let field = field.clamp(0, format.top() as i64 - 1) as u64;
        let digits = self.digits(format);
        format.pattern(self.coin(), field, digits)
    }

    /// Any pattern at all, NaNs and infinities among them.
    pub fn pattern(&mut self, format: &Format) -> u64 {
        format.pattern(self.coin(), self.word() & format.top(), self.word() & format.all_digits())
    }

    /// A pattern at most `reach` places from another.
    pub fn beside(&mut self, pattern: u64, reach: i64) -> u64 {
        pattern.wrapping_add_signed(self.within(-reach, reach))
    }
}

/// Every kind of special value with its neighbours: zeros, the smallest and largest subnormal and
/// normal numbers, 1 and 2 and what lies beside them, infinities, quiet and signalling NaNs.
pub fn specials(format: &Format) -> impl Iterator<Item = u64> + '_ {
    let (bias, top, all) = (format.bias, format.top(), format.all_digits());
    let half = all / 2 + 1;
    let fields = [0, 1, 2, bias - 1, bias, bias + 1, bias + format.digits as u64, top - 2, top - 1, top];
    let digits = [0, 1, 2, half - 1, half, half + 1, all];
    fields.into_iter().flat_map(move |field| digits.into_iter().flat_map(move |d| both_signs(format, field, d)))
}

/// Every exponent's field with both signs and the given digits.
pub fn ladder<'a>(format: &'a Format, digits: &'a [u64]) -> impl Iterator<Item = u64> + 'a {
    (0..=format.top()).flat_map(move |field| digits.iter().flat_map(move |d| both_signs(format, field, *d)))
}

fn both_signs(format: &Format, field: u64, digits: u64) -> [u64; 2] {
    [false, true].map(|negative| format.pattern(negative, field, digits))
}
