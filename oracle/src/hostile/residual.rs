//! W13. The residual, beside the same worked out plainly in wider numbers.

use super::turn::Turn;
use crate::{random::Random, Export};
use boundary::{self as b, ReportWords};

pub const EXPORTS: &[Export] = &[("fugnadri_residual_compare", compare)];

const FULL: u64 = 1 << 36;

/// A value of 24 bits, about its ends, or anything.
fn value(r: &mut Random) -> i32 {
    match r.word() % 4096 {
        0 => r.pick(&[i32::MIN, i32::MAX, 1 << 23, -(1 << 23) - 1]),
        1..=255 => r.pick(&[-(1 << 23), (1 << 23) - 1, 0, -1]),
        256..=2047 => r.within(-3, 3) as i32,
        _ => r.within(-(1 << 23), (1 << 23) - 1) as i32,
    }
}

/// A length: mostly few, else about the blocks of 256 that the library counts at once.
fn length(r: &mut Random) -> usize {
    if r.one_in(16) {
        (r.pick(&[255, 510, 765]) + r.word() % 6) as usize
    } else {
        (r.word() % 40) as usize
    }
}

/// A report that is mostly one of a run's, about the ends of its ranges, or one of whose numbers is anything. `more`
/// samples are compared with it.
fn report(r: &mut Random, more: usize) -> ReportWords {
    if r.one_in(4) {
        let (largest, low) = (u32::from(r.one_in(16)), u64::from(r.one_in(16)));
        return ReportWords { place: r.word(), largest, low, ..Default::default() };
    }
    let number = match r.word() % 8 {
        0 => FULL - r.word() % 20,
        1 | 2 => (FULL - more as u64 + r.word() % 2).min(FULL), // 2^36 reached and passed by one
        _ => 1 + r.word() % 1000,
    };
    let largest = match r.word() % 4 {
        0 => r.pick(&[0, 1, (1 << 24) - 2, (1 << 24) - 1]),
        _ => (r.word() % (1 << 24)) as u32,
    };
    let square = u128::from(largest).pow(2);
    let most = square * u128::from(number);
    let sum = match r.word() % 8 {
        0 => square,
        1 => most,
        _ => square + (u128::from(r.word()) << 64 | u128::from(r.word())) % (most - square + 1),
    };
    let (high, low) = halves(sum);
    let mut words = ReportWords { number, largest, placed: 1, place: r.word() % number, high, low };
    match r.word() % 32 {
        0 => words.number = r.pick(&[FULL + 1, 0, u64::MAX]),
        1 => words.number = r.whole(),
        2 => words.largest = r.pick(&[1 << 24, largest ^ 1, u32::MAX]),
        3 => words.largest = r.whole() as u32,
        4 => words.placed = r.count(0, 1) as u8,
        5 => words.place = number - r.word() % 2,
        6 => words.high = r.whole(),
        7 => (words.high, words.low) = (words.low, words.high),
        8 | 9 => (words.high, words.low) = halves(most + 1),
        10 | 11 => (words.high, words.low) = halves(square.saturating_sub(1)),
        _ => {}
    }
    words
}

fn halves(sum: u128) -> (u64, u64) {
    ((sum >> 64) as u64, sum as u64)
}

fn due(r: &ReportWords, xs: &[i32], ys: &[i32]) -> u8 {
    let (square, sum) = (u128::from(r.largest).pow(2), u128::from(r.high) << 64 | u128::from(r.low));
    let place = match r.placed {
        0 => r.number == 0,
        1 => r.place < r.number,
        _ => false,
    };
    if xs.iter().chain(ys).any(|x| !(-(1 << 23)..1 << 23).contains(x)) {
        1
    } else if xs.len() != ys.len() {
        2
    } else if r.number > FULL || r.largest >= 1 << 24 || !place || sum < square || sum > u128::from(r.number) * square {
        3
    } else if r.number + xs.len() as u64 > FULL {
        8
    } else {
        0
    }
}

fn carried(mut r: ReportWords, xs: &[i32], ys: &[i32]) -> ReportWords {
    let mut sum = u128::from(r.high) << 64 | u128::from(r.low);
    for (x, y) in xs.iter().zip(ys) {
        let d = x.abs_diff(*y);
        if r.number == 0 || d > r.largest {
            (r.largest, r.placed, r.place) = (d, 1, r.number);
        }
        r.number += 1;
        sum += u128::from(d).pow(2);
    }
    (r.high, r.low) = halves(sum);
    r
}

fn compare(t: &mut Turn) -> u8 {
    let memory = t.memory;
    let many = length(&mut t.random);
    let other = if t.random.one_in(16) { length(&mut t.random) } else { many };
    let a = memory.source.lend(&mut t.random, memory.wholes, many);
    let c = memory.table.lend(&mut t.random, memory.wholes, other);
    [&a, &c].iter().for_each(|lent| lent.slice().iter_mut().for_each(|x| *x = value(&mut t.random)));
    if t.random.one_in(2) {
        // one stretch near the other: blocks in which no difference is above the largest so far
        let far = t.random.pick(&[1, 1000, 1 << 20]);
        c.slice().iter_mut().zip(a.slice()).for_each(|(y, x)| *y = x.saturating_add(t.random.within(-far, far) as i32));
    }
    let (xs, ys) = (a.slice().to_vec(), c.slice().to_vec());
    let before = report(&mut t.random, many);
    let mut after = before;
    let number = b::residual_compare(&mut after, a.slice(), c.slice());
    t.hold(number == due(&before, &xs, &ys), "another refusal is due");
    t.hold(after == if number == 0 { carried(before, &xs, &ys) } else { before }, "the report is another");
    t.hold(a.zone_kept() && c.zone_kept() && a.slice() == xs && c.slice() == ys, "a stretch has changed");
    if number == 0 && t.random.one_in(4) {
        // W13e. Cut in two, with a refused call between, the report is the same.
        let cut = (t.random.word() % (xs.len() as u64 + 1)) as usize;
        let mut pieces = before;
        let first = b::residual_compare(&mut pieces, &xs[..cut], &ys[..cut]);
        let refused = b::residual_compare(&mut pieces, &[1 << 23], &[0]);
        let second = b::residual_compare(&mut pieces, &xs[cut..], &ys[cut..]);
        t.hold((first, refused, second) == (0, 1, 0) && pieces == after, "cut in two the report is another");
    }
    let seen = [after.number, after.largest.into(), after.placed.into(), after.high, after.low];
    seen.iter().for_each(|n| t.saw(*n as i64));
    number
}
