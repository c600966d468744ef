//! The two formats of IEEE 754 as patterns: sign, exponent's field, digits.

pub struct Format {
    /// The digits below the exponent's field.
    pub digits: u32,
    /// The field of 1. The largest field, that of infinities and NaNs, is one more than twice it.
    pub bias: u64,
}

pub const BINARY64: Format = Format { digits: 52, bias: 1023 };
pub const BINARY32: Format = Format { digits: 23, bias: 127 };

impl Format {
    pub fn top(&self) -> u64 {
        2 * self.bias + 1
    }

    pub fn pattern(&self, negative: bool, field: u64, digits: u64) -> u64 {
        let sign = if negative { self.top() + 1 } else { 0 };
        ((sign + field) << self.digits) + digits
    }

    pub fn negative(&self, pattern: u64) -> bool {
        pattern >> self.digits > self.top()
    }

    pub fn field(&self, pattern: u64) -> u64 {
        pattern >> self.digits & self.top()
    }

    pub fn digits_of(&self, pattern: u64) -> u64 {
        pattern & self.all_digits()
    }

    pub fn all_digits(&self) -> u64 {
        (1 << self.digits) - 1
    }
}
