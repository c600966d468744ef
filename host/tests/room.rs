//! Two desks ask for the sets of one room and give them up.

use fugnadri::{Desk, Mode, Refusal, Room, SET_LENGTH};

#[test]
fn a_set_is_shared_and_freed_by_its_last_holder() {
    let mut room = Room::new(2);
    assert_eq!(room.ask(Desk::One, 1.5, Mode::Ported), Ok(0));
    assert_eq!(room.ask(Desk::Two, 1.5, Mode::Ported), Ok(0));
    assert_eq!(room.read().marks, [3, 0]);
    assert_eq!(room.ask(Desk::One, 1.5, Mode::Ported), Ok(0));
    assert_eq!(room.ask(Desk::One, 1.5, Mode::Full), Ok(1));
    assert_eq!(room.read().marks, [3, 5]);
    assert_eq!(room.read().rates, [1.5, 1.5]);
    let held = room.read().slots[..SET_LENGTH].to_vec();
    assert_eq!(room.ask(Desk::Two, 1.25, Mode::Ported), Err(Refusal::AllHeld));
    assert_eq!(room.give_up(Desk::Two, 1.5, Mode::Full), Err(Refusal::NotHeld));
    assert_eq!(room.give_up(Desk::One, 1.5, Mode::Ported), Ok(()));
    assert_eq!(room.give_up(Desk::One, 1.5, Mode::Ported), Err(Refusal::NotHeld));
    assert_eq!(room.read().marks, [2, 5]);
    assert_eq!(room.give_up(Desk::One, 1.5, Mode::Full), Ok(()));
    assert_eq!(room.ask(Desk::Two, 1.25, Mode::Ported), Ok(1));
    assert_eq!(room.read().marks, [2, 2]);
    assert_eq!(room.read().rates, [1.5, 1.25]);
    assert_eq!(room.read().slots[..SET_LENGTH], held);
}

#[test]
fn no_slots_and_no_rates() {
    let mut room = Room::new(0);
    assert_eq!(room.ask(Desk::One, 1.5, Mode::Ported), Err(Refusal::AllHeld));
    for bad in [f64::NAN, f64::INFINITY, 0.999, 2.001] {
        assert_eq!(room.ask(Desk::One, bad, Mode::Ported), Err(Refusal::Setting));
        assert_eq!(room.give_up(Desk::Two, bad, Mode::Full), Err(Refusal::Setting));
    }
}
