//! W13. The residual beside a plain reckoning: cut differently, with refused calls between, and at its ranges' ends.

use fugnadri::{Refusal, Residual};

const END: i32 = 1 << 23;
const FULL: u64 = 1 << 36;

/// Two stretches of 24-bit values; most differ little, a few by much.
fn stretches(length: usize) -> (Vec<i32>, Vec<i32>) {
    let mut state = 0x9E37_79B9_7F4A_7C15u64;
    let mut word = || {
        state ^= state << 13;
        state ^= state >> 7;
        state ^= state << 17;
        state
    };
    let a: Vec<i32> = (0..length).map(|_| (word() % (2 * END as u64)) as i32 - END).collect();
    let mut by = || if word() % 97 == 0 { (word() % 4001) as i32 - 2000 } else { (word() % 5) as i32 - 2 };
    let b = a.iter().map(|x| (x + by()).clamp(-END, END - 1)).collect();
    (a, b)
}

fn told(r: &Residual) -> (u64, u32, Option<u64>, u128) {
    (r.number(), r.largest(), r.place(), r.sum())
}

fn reckoned(a: &[i32], b: &[i32]) -> (u64, u32, Option<u64>, u128) {
    let differences: Vec<u32> = a.iter().zip(b).map(|(x, y)| x.abs_diff(*y)).collect();
    let largest = differences.iter().copied().max();
    let place = differences.iter().position(|d| Some(*d) == largest).map(|i| i as u64);
    let sum = differences.iter().map(|d| u128::from(*d).pow(2)).sum();
    (differences.len() as u64, largest.unwrap_or(0), place, sum)
}

#[test]
fn nothing_compared() {
    assert_eq!(told(&Residual::new()), (0, 0, None, 0));
    let mut r = Residual::new();
    r.compare(&[], &[]).unwrap();
    assert_eq!(r, Residual::new());
    r.compare(&[7], &[7]).unwrap();
    assert_eq!(told(&r), (1, 0, Some(0), 0));
}

#[test]
fn cut_differently() {
    let (a, b) = stretches(3000);
    let mut whole = Residual::new();
    whole.compare(&a, &b).unwrap();
    assert_eq!(told(&whole), reckoned(&a, &b));
    for piece in [1, 2, 255, 256, 257, 511, 512, 1000, 2999] {
        let mut cut = Residual::new();
        for (x, y) in a.chunks(piece).zip(b.chunks(piece)) {
            cut.compare(x, y).unwrap();
        }
        assert_eq!(cut, whole, "in pieces of {piece}");
    }
}

#[test]
fn growing_and_equal_differences() {
    for step in [0, 1, 9] {
        let a: Vec<i32> = (0..700).map(|i| i * step).collect();
        let b = vec![0; a.len()];
        let mut r = Residual::new();
        r.compare(&a, &b).unwrap();
        assert_eq!(told(&r), reckoned(&a, &b));
        r.compare(&b, &a).unwrap(); // the same differences again: the first place stays
        assert_eq!(told(&r), reckoned(&[&a[..], &b].concat(), &[&b[..], &a].concat()));
    }
}

#[test]
fn refused_calls_add_nothing() {
    let (a, b) = stretches(600);
    let mut whole = Residual::new();
    whole.compare(&a, &b).unwrap();
    let mut r = Residual::new();
    for (x, y) in a.chunks(250).zip(b.chunks(250)) {
        let before = r;
        for bad in [END, -END - 1, i32::MAX, i32::MIN] {
            // the last of 301 values, and in either stretch; 1 comes before 2
            let outside = [&a[..300], &[bad]].concat();
            assert_eq!(r.compare(&outside, &b[..301]), Err(Refusal::Setting));
            assert_eq!(r.compare(&b[..301], &outside), Err(Refusal::Setting));
            assert_eq!(r.compare(&outside, &[]), Err(Refusal::Setting));
        }
        assert_eq!(r.compare(x, &y[1..]), Err(Refusal::Length));
        assert_eq!(r, before);
        r.compare(x, y).unwrap();
    }
    assert_eq!(r, whole);
}

#[test]
fn two_to_the_36_reached_and_passed() {
    let mut r = Residual::carried(FULL - 300, 3, Some(5), 9).unwrap();
    assert_eq!(r.compare(&[1; 301], &[0; 301]), Err(Refusal::Full));
    assert_eq!(told(&r), (FULL - 300, 3, Some(5), 9));
    r.compare(&[1; 299], &[0; 299]).unwrap();
    r.compare(&[4], &[0]).unwrap();
    assert_eq!(told(&r), (FULL, 4, Some(FULL - 1), 9 + 299 + 16));
    assert_eq!(r.compare(&[0], &[0]), Err(Refusal::Full));
    r.compare(&[], &[]).unwrap();
    assert_eq!(r.number(), FULL);
}

#[test]
fn the_largest_sum_exceeds_64_bits() {
    let most = (1u32 << 24) - 1;
    let square = u128::from(most).pow(2);
    let sum = u128::from(FULL - 512) * square;
    let mut r = Residual::carried(FULL - 512, most, Some(0), sum).unwrap();
    r.compare(&[-END; 512], &[END - 1; 512]).unwrap();
    assert_eq!(told(&r), (FULL, most, Some(0), u128::from(FULL) * square));
    assert!(r.sum() > 1 << 83);
}

#[test]
fn what_no_comparison_leaves_is_refused() {
    let most = (1 << 24) - 1;
    let refused = Err(Refusal::State);
    let took = |number, largest, place, sum| Residual::carried(number, largest, place, sum).map(|r| told(&r));
    assert_eq!(took(0, 0, None, 0), Ok((0, 0, None, 0)));
    assert_eq!(took(0, 0, Some(0), 0), refused);
    assert_eq!(took(0, 1, None, 0), refused);
    assert_eq!(took(0, 1, None, 1), refused);
    assert_eq!(took(5, 3, None, 9), refused);
    assert_eq!(took(5, 3, Some(5), 9), refused);
    for (sum, ok) in [(8, false), (9, true), (45, true), (46, false), (9 + (1 << 64), false)] {
        assert_eq!(took(5, 3, Some(4), sum).is_ok(), ok, "a sum of {sum}");
    }
    assert!(took(1, most, Some(0), u128::from(most).pow(2)).is_ok());
    assert_eq!(took(1, most + 1, Some(0), u128::from(most + 1).pow(2)), refused);
    assert!(took(FULL, 0, Some(0), 0).is_ok());
    assert_eq!(took(FULL + 1, 0, Some(0), 0), refused);
}
