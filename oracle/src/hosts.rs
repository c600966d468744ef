//! The port by the types of host/, in both ways: `strict` refuses by a number; `lenient` is 0.0 where the original is, and panics where the original does or
//! where the port is not proved.

use host::{lenient, strict, Absent, Refusal, SampleSource, SampleSourceF32};
use std::convert::identity;
use std::panic::{catch_unwind, set_hook, take_hook, AssertUnwindSafe};
use std::sync::atomic::{AtomicBool, Ordering::Relaxed};
use std::sync::Once;

/// The number by which a call is refused, 0 for none, and the value, 0.0 where it is refused.
pub fn refused<T: Default>(answer: Result<T, Refusal>) -> (u8, T) {
    match answer {
        Ok(value) => (0, value),
        Err(refusal) => (refusal.number(), T::default()),
    }
}

/// The same of a call that panics: 'refused by N' is how its message begins. 99 for any other panic.
pub fn panicked<T>(call: impl FnOnce() -> T) -> Result<T, u8> {
    static QUIET: AtomicBool = AtomicBool::new(false);
    static HOOK: Once = Once::new();
    HOOK.call_once(|| {
        let before = take_hook();
        set_hook(Box::new(move |panic| {
            if !QUIET.load(Relaxed) {
                before(panic)
            }
        }));
    });
    QUIET.store(true, Relaxed);
    let answer = catch_unwind(AssertUnwindSafe(call));
    QUIET.store(false, Relaxed);
    answer.map_err(|said| {
        let number = said.downcast_ref::<String>().and_then(|text| text.strip_prefix("refused by "));
        number.and_then(|text| text.split(':').next()?.parse().ok()).unwrap_or(99)
    })
}

/// What a lenient call gives as a number and a value.
pub fn caught<T: Default>(call: impl FnOnce() -> T) -> (u8, T) {
    match panicked(call) {
        Ok(value) => (0, value),
        Err(number) => (number, T::default()),
    }
}

/// What a strict call gives likewise.
pub fn asked<T: Default>(call: impl FnOnce() -> Result<T, Refusal>) -> (u8, T) {
    refused(call())
}

/// A strict call that tells its absent taps, and a lenient one: none where it panics.
pub fn asked_told<T: Default>(call: impl FnOnce() -> (Result<T, Refusal>, Absent)) -> (u8, T, Absent) {
    let (answer, absent) = call();
    let (number, value) = refused(answer);
    (number, value, absent)
}

pub fn caught_told<T: Default>(call: impl FnOnce() -> (T, Absent)) -> (u8, T, Absent) {
    let (number, (value, absent)) = caught(call);
    (number, value, absent)
}

/// The number that a lenient reader tells where this one is due: an input or a delay that the original answers by 0.0 is no panic.
pub fn told(number: u8) -> u8 {
    if number == 4 || number == 5 {
        0
    } else {
        number
    }
}

/// A reader of host/ over any kernel.
pub trait Hosted<T> {
    fn process(&mut self, input: T, delay: f64) -> (u8, T);
    fn reset(&mut self);
    /// Its count and its ring.
    fn parts(&mut self) -> (&mut u64, &mut Vec<T>);
    /// The number that it tells where this one is due.
    fn tells(&self, number: u8) -> u8;
}

macro_rules! hosted {
    ($($way:ident $reader:ident $kernel:ident $float:ty, $given:ident, $tells:expr;)*) => {
        $(impl<K: $way::$kernel> Hosted<$float> for $way::$reader<K> {
            #[inline]
            fn process(&mut self, input: $float, delay: f64) -> (u8, $float) {
                $given(|| self.process_sample(input, delay))
            }
            fn reset(&mut self) {
                $way::$reader::reset(self)
            }
            fn parts(&mut self) -> (&mut u64, &mut Vec<$float>) {
                $way::$reader::parts(self)
            }
            fn tells(&self, number: u8) -> u8 {
                $tells(number)
            }
        })*
    };
}

hosted! {
    strict VariableDelay Kernel f64, asked, identity;
    strict VariableDelayF32 KernelF32 f32, asked, identity;
    lenient VariableDelay Kernel f64, caught, told;
    lenient VariableDelayF32 KernelF32 f32, caught, told;
}

/// A source of a user's own: it is no slice to host/, which gathers the taps.
pub struct Own<'a, T>(pub &'a [T]);

impl SampleSource for Own<'_, f64> {
    fn at(&self, index: i64) -> f64 {
        usize::try_from(index).ok().and_then(|k| self.0.get(k)).copied().unwrap_or(0.0)
    }
}

impl SampleSourceF32 for Own<'_, f32> {
    fn at_f32(&self, index: i64) -> f32 {
        usize::try_from(index).ok().and_then(|k| self.0.get(k)).copied().unwrap_or(0.0)
    }
}
