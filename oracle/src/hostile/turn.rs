//! One call: its generator, and what it is held to.

use super::{pool::Memory, value::Value, watch};
use crate::random::Random;

pub struct Turn<'a> {
    pub random: Random,
    /// How often this export was called before.
    pub index: u64,
    pub memory: &'a Memory,
    /// A sum over every answer.
    pub sum: u64,
}

impl<'a> Turn<'a> {
    pub fn new(memory: &'a Memory, seed: u64, number: u64, index: u64) -> Self {
        // splitmix64: neighbouring calls have nothing in common
        let mut x = seed.wrapping_add(number.wrapping_mul(0x9E37_79B9_7F4A_7C15));
        x = (x ^ x >> 30).wrapping_mul(0xBF58_476D_1CE4_E5B9);
        x = (x ^ x >> 27).wrapping_mul(0x94D0_49BB_1331_11EB);
        Turn { random: Random::new(x ^ x >> 31), index, memory, sum: 0 }
    }

    #[inline]
    pub fn hold(&self, same: bool, what: &str) {
        if !same {
            watch::fault(what)
        }
    }

    /// Takes an answer into the sum, every NaN alike. A float or a pattern that is a NaN must be the one that is handed out.
    #[inline]
    pub fn saw<T: Value>(&mut self, answer: T) {
        self.hold(!answer.odd(), "a NaN is handed out as another pattern");
        self.sum = (self.sum.rotate_left(5) ^ answer.alike()).wrapping_mul(0x9E37_79B9_7F4A_7C15);
    }

    /// A call that answers a number through its result and a value through its last argument: the value is 0.0 where it is refused, and nothing beside it
    /// is written.
    #[inline]
    pub fn value<T: Value>(&mut self, call: impl FnOnce(&mut Self, &mut T) -> u8) -> u8 {
        self.value_by(8, call)
    }

    /// The same for a call whose refusals have numbers up to `most`.
    #[inline]
    pub fn value_by<T: Value>(&mut self, most: u8, call: impl FnOnce(&mut Self, &mut T) -> u8) -> u8 {
        let word = self.random.word();
        let mut around = [T::of(word), T::of(!word), T::of(word)];
        let [low, value, high] = &mut around;
        let number = call(self, value);
        self.hold(number <= most, "the answer is no refusal's number");
        self.hold(low.bits() == T::of(word).bits() && high.bits() == T::of(word).bits(), "something beside the value is written");
        self.hold(number == 0 || value.bits() == 0, "a refused call's value is not 0.0");
        let value = *value;
        self.saw(value);
        number
    }
}
