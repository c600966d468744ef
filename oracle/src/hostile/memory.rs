//! Memory to lend: up to the end of a page or from the start of one, with a page behind that nobody may touch, and written bytes on the other side.

use crate::random::Random;
use std::{ffi::c_void, ops::Range, ptr, slice};

extern "C" {
    fn mmap(at: *mut c_void, length: usize, protection: i32, flags: i32, file: i32, offset: i64) -> *mut c_void;
    fn mprotect(at: *mut c_void, length: usize, protection: i32) -> i32;
}

const PAGE: usize = 4096;
const ZONE: usize = 64;
const MARK: u8 = 0xA5;

pub struct Region {
    at: *mut u8,
    bytes: usize,
}

impl Region {
    pub fn new(bytes: usize) -> Self {
        let bytes = (bytes + ZONE).next_multiple_of(PAGE);
        // private, of no file, no swap kept for it
        let all = unsafe { mmap(ptr::null_mut(), bytes + 2 * PAGE, 0, 0x4022, -1, 0) } as *mut u8;
        assert!(all as isize != -1, "no memory");
        let at = unsafe { all.add(PAGE) };
        let region = Region { at, bytes };
        region.protect(3);
        region
    }

    fn protect(&self, protection: i32) {
        assert_eq!(unsafe { mprotect(self.at.cast(), self.bytes, protection) }, 0, "memory cannot be protected");
    }

    /// Fills it once, for ever: a call that writes there is a crash.
    pub fn only_read<T: Copy>(self, pool: &[T]) -> Self {
        let all = unsafe { slice::from_raw_parts_mut(self.at.cast::<T>(), self.bytes / size_of::<T>()) };
        all.iter_mut().zip(pool.iter().cycle()).for_each(|(x, y)| *x = *y);
        self.protect(1);
        self
    }

    /// The last elements of what is only read.
    pub fn last<T>(&self, length: usize) -> &[T] {
        let bytes = length * size_of::<T>();
        assert!(bytes <= self.bytes);
        unsafe { slice::from_raw_parts(self.at.add(self.bytes - bytes).cast(), length) }
    }

    /// The same, for a call that takes a slice that it may write, and must not: a write is a crash.
    #[allow(clippy::mut_from_ref)]
    pub fn last_mut<T>(&self, length: usize) -> &mut [T] {
        let last = self.last::<T>(length);
        unsafe { slice::from_raw_parts_mut(last.as_ptr().cast_mut(), last.len()) }
    }

    /// Lends so many elements, filled from a place of the pool on.
    pub fn lend<T: Copy>(&self, random: &mut Random, pool: &'static [T], length: usize) -> Lent<T> {
        let bytes = length * size_of::<T>();
        assert!(bytes + ZONE <= self.bytes);
        let (word, rest) = (random.word(), self.bytes - bytes);
        let (at, zone) = if word & 1 == 0 { (rest, rest - ZONE) } else { (0, bytes) };
        let (at, zone) = unsafe { (self.at.add(at).cast::<T>(), self.at.add(zone)) };
        unsafe { zone.write_bytes(MARK, ZONE) };
        let lent = Lent { at, length, zone, pool, offset: (word >> 1) as usize % pool.len() };
        lent.parts(|k, part| unsafe { ptr::copy_nonoverlapping(part.as_ptr(), at.add(k), part.len()) });
        lent
    }
}

pub struct Lent<T: 'static> {
    at: *mut T,
    length: usize,
    zone: *const u8,
    pool: &'static [T],
    offset: usize,
}

fn bytes<T>(part: &[T]) -> &[u8] {
    unsafe { slice::from_raw_parts(part.as_ptr().cast(), size_of_val(part)) }
}

impl<T: Copy> Lent<T> {
    /// The pool's parts that it was filled with, and where each begins.
    fn parts(&self, mut each: impl FnMut(usize, &[T])) {
        let (mut k, mut from) = (0, self.offset);
        while k < self.length {
            let many = (self.length - k).min(self.pool.len() - from);
            each(k, &self.pool[from..from + many]);
            (k, from) = (k + many, 0);
        }
    }

    #[allow(clippy::mut_from_ref)]
    pub fn slice(&self) -> &'static mut [T] {
        unsafe { slice::from_raw_parts_mut(self.at, self.length) }
    }

    /// A vector over it, for the types that own theirs: it is never dropped and never grows.
    pub fn vector(&self) -> Vec<T> {
        unsafe { Vec::from_raw_parts(self.at, self.length, self.length) }
    }

    pub fn zone_kept(&self) -> bool {
        unsafe { slice::from_raw_parts(self.zone, ZONE) }.iter().all(|b| *b == MARK)
    }

    /// Every byte is as it was lent, and so are those beside it.
    pub fn kept(&self) -> bool {
        let (now, mut same) = (self.slice(), self.zone_kept());
        self.parts(|k, part| same &= bytes(part) == bytes(&now[k..k + part.len()]));
        same
    }

    /// The same but for a range of elements.
    pub fn kept_but(&self, range: Range<usize>) -> bool {
        let (now, mut same) = (self.slice(), self.zone_kept());
        self.parts(|k, part| {
            let (from, to) = (range.start.clamp(k, k + part.len()), range.end.clamp(k, k + part.len()));
            same &= bytes(&part[..from - k]) == bytes(&now[k..from]);
            same &= bytes(&part[to - k..]) == bytes(&now[to..k + part.len()]);
        });
        same
    }

    /// The same but for one element, which has become `value`.
    pub fn stored(&self, place: usize, value: T) -> bool {
        let was = self.pool[(self.offset + place) % self.pool.len()];
        let now = std::mem::replace(&mut self.slice()[place], was);
        bytes(&[now]) == bytes(&[value]) && self.kept()
    }
}

impl Lent<f64> {
    /// O3. Every NaN that was not lent as it stands has the one pattern. It is the compiler's constant, which the checked
    /// build, compiled without its passes, does not make.
    pub fn one_nan(&self) -> bool {
        let (now, mut one) = (self.slice(), true);
        self.parts(|k, part| {
            one &= now[k..].iter().zip(part).all(|(x, was)| {
                !cfg!(linked) || !x.is_nan() || [was.to_bits(), 0x7ff8_0000_0000_0000].contains(&x.to_bits())
            });
        });
        one
    }
}
