//! What an export hands out, and how its NaNs are looked at.

/// What is handed out through a pointer: a float, or a pattern.
pub trait Value: Copy {
    fn of(word: u64) -> Self;
    fn bits(self) -> u64;
    /// A NaN other than the one that is handed out. Of floats in the linked libraries alone: without optimisation the
    /// processor itself divides 0.0 by 0.0, and gives its own NaN.
    fn odd(self) -> bool {
        false
    }
    /// The bits, and the same for every NaN that is a float: for what the original's side would hand out.
    fn alike(self) -> u64 {
        self.bits()
    }
}

impl Value for f64 {
    fn of(word: u64) -> Self {
        f64::from_bits(word)
    }
    fn bits(self) -> u64 {
        self.to_bits()
    }
    fn odd(self) -> bool {
        cfg!(linked) && self.to_bits().odd()
    }
    fn alike(self) -> u64 {
        if self.is_nan() {
            1
        } else {
            self.to_bits()
        }
    }
}

impl Value for f32 {
    fn of(word: u64) -> Self {
        f32::from_bits(word as u32)
    }
    fn bits(self) -> u64 {
        self.to_bits().into()
    }
    fn odd(self) -> bool {
        cfg!(linked) && self.to_bits().odd()
    }
    fn alike(self) -> u64 {
        if self.is_nan() {
            1
        } else {
            self.to_bits().into()
        }
    }
}

impl Value for u64 {
    fn of(word: u64) -> Self {
        word
    }
    fn bits(self) -> u64 {
        self
    }
    fn odd(self) -> bool {
        f64::from_bits(self).is_nan() && self != 0x7FF8_0000_0000_0000
    }
}

impl Value for u32 {
    fn of(word: u64) -> Self {
        word as u32
    }
    fn bits(self) -> u64 {
        self.into()
    }
    fn odd(self) -> bool {
        f32::from_bits(self).is_nan() && self != 0x7FC0_0000
    }
}

/// A whole number, a place or a code, which hands out no pattern.
macro_rules! whole {
    ($($of:ty),*) => {
        $(impl Value for $of {
            fn of(word: u64) -> Self {
                word as $of
            }
            fn bits(self) -> u64 {
                self as u64
            }
        })*
    };
}

whole!(i64, i32, usize, u8);
