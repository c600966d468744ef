//! Two desks over one room: each answers as the quality reader over a bank of its own, whatever the other does, and is
//! refused where a set that it does not hold itself would be read. It tells the absent taps that such a reader tells.

use fugnadri::strict::{QualityVariableDelayF32, Refusal, SincBankF32};
use fugnadri::{build_set, Absent, Desk, DeskDelay, Mode, QualityMode, RoomRead, SET_LENGTH};
use std::sync::Arc;

const HQ: QualityMode = QualityMode::Hq;

/// The bank for 1.02, its two rates, and its sets in a room of three slots, the tighter set first, the last slot free.
fn furnished() -> (Arc<SincBankF32>, [f64; 2], Vec<f32>) {
    let bank = Arc::new(SincBankF32::for_max_rate(1.02).expect("a rate in range"));
    let rates = [1.0 + (1.02 - 1.0) * 1.0 / 2.0, 1.02];
    let mut slots = vec![0.0; 3 * SET_LENGTH];
    for (rate, slot) in [rates[1], rates[0]].iter().zip(slots.chunks_mut(SET_LENGTH)) {
        assert_eq!(build_set(*rate, Mode::Ported, slot), Ok(()));
    }
    (bank, rates, slots)
}

fn desk(desk: Desk) -> DeskDelay {
    DeskDelay::new(desk, Mode::Ported, 1.02, 100, 64, HQ, 4).expect("settings in range")
}

fn calls() -> impl Iterator<Item = (f32, f64, QualityMode, f64)> {
    let qualities = [HQ, QualityMode::Draft, QualityMode::Ultra, QualityMode::Normal];
    (0..200usize).map(move |n| {
        let input = ((n * 37) % 101) as f32 / 50.0 - 1.0;
        (input, 20.0 + (n % 13) as f64 * 0.37, qualities[n / 7 % 4], 1.0 + (n % 9) as f64 * 0.003)
    })
}

#[test]
fn each_desk_reads_as_over_a_bank_of_its_own() {
    let (bank, [low, high], slots) = furnished();
    let rates = [high, low, 0.0];
    let shared = RoomRead { rates: &rates, marks: &[3, 3, 0], slots: &slots };
    let alone = RoomRead { rates: &rates, marks: &[1, 1, 0], slots: &slots };
    let mut one = desk(Desk::One);
    let mut two = desk(Desk::Two);
    let new = || QualityVariableDelayF32::new(100, 64, bank.clone(), HQ, 4).expect("settings in range");
    let (mut first, mut second) = (new(), new());
    for (n, (input, delay, quality, rate)) in calls().enumerate() {
        let right = first.process_sample_rate_aware(input, delay, quality, rate).map(f32::to_bits);
        // desk two leaves and comes back: desk one does not notice
        let room = if n % 3 == 0 { alone } else { shared };
        assert_eq!(one.process_sample_rate_aware(room, input, delay, quality, rate).map(f32::to_bits), right);
        if n % 3 == 0 {
            assert_eq!(two.process_sample_rate_aware(room, input, delay, quality, rate), Err(Refusal::Length));
        } else {
            let right = second.process_sample(-input, delay, quality).map(f32::to_bits);
            assert_eq!(two.process_sample(room, -input, delay, quality).map(f32::to_bits), right);
        }
    }
}

#[test]
fn a_desk_tells_what_the_reader_tells() {
    let (bank, [low, high], slots) = furnished();
    let rates = [high, low, 0.0];
    let room = RoomRead { rates: &rates, marks: &[1, 3, 0], slots: &slots };
    let (mut one, mut two) = (desk(Desk::One), desk(Desk::Two));
    let mut first = QualityVariableDelayF32::new(100, 64, bank, HQ, 4).expect("settings in range");
    for (n, (input, delay, quality, rate)) in calls().enumerate() {
        let (told, right) = match n % 3 {
            0 => (
                one.process_sample_told(room, input, delay, quality),
                first.process_sample_told(input, delay, quality),
            ),
            _ => (
                one.process_sample_rate_aware_told(room, input, delay, quality, rate),
                first.process_sample_rate_aware_told(input, delay, quality, rate),
            ),
        };
        assert_eq!(told, right);
        // a set that the other desk alone holds: refused, and three zeros
        let refused = two.process_sample_told(room, input, delay, quality);
        assert_eq!(refused, (Err(Refusal::Length), Absent::default()));
    }
}

#[test]
fn a_missing_set_is_refused_in_draft_too() {
    let (_, [low, high], slots) = furnished();
    let rates = [high, low, 0.0];
    let mut one = desk(Desk::One);
    let draft = QualityMode::Draft;
    for marks in [[2, 1, 0], [1, 2, 0], [5, 1, 0], [0, 1, 0]] {
        let room = RoomRead { rates: &rates, marks: &marks, slots: &slots };
        assert_eq!(one.process_sample_rate_aware(room, 0.5, 20.0, draft, 1.005), Err(Refusal::Length), "{marks:?}");
        assert_eq!(one.process_sample_rate_aware(room, 0.5, 20.0, draft, f64::NAN), Err(Refusal::Rate), "{marks:?}");
    }
    // in the other mode the sets are others
    let mut full = DeskDelay::new(Desk::One, Mode::Full, 1.02, 100, 64, HQ, 4).expect("settings in range");
    let held = RoomRead { rates: &rates, marks: &[1, 1, 0], slots: &slots };
    assert_eq!(full.process_sample(held, 0.5, 20.0, draft), Err(Refusal::Length));
    assert!(one.process_sample(held, 0.5, 20.0, draft).is_ok());
}

#[test]
fn a_room_outside_its_ranges_is_refused() {
    let (_, [low, high], slots) = furnished();
    let mut one = desk(Desk::One);
    for (rates, marks) in [
        ([high, low, 1.5], [1, 1, 4]),
        ([high, low, 1.5], [1, 1, 8]),
        ([high, low, 2.5], [1, 1, 2]),
        ([high, low, high], [1, 1, 2]),
    ] {
        let room = RoomRead { rates: &rates, marks: &marks, slots: &slots };
        assert_eq!(one.process_sample(room, 0.5, 20.0, HQ), Err(Refusal::State), "{rates:?} {marks:?}");
    }
    let short = RoomRead { rates: &[high, low], marks: &[1, 1, 0], slots: &slots };
    assert_eq!(one.process_sample(short, 0.5, 20.0, HQ), Err(Refusal::Length));
}
