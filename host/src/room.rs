//! A room of tables that two desks share.

use crate::{boundary, desk::SET_LENGTH, Desk, Mode, Refusal, RoomRead};

/// Slots of one set each. A desk asks for the set of a rate and a mode, and shares it if it is there; otherwise a free
/// slot is built. A set does not change while a desk holds it.
pub struct Room {
    rates: Vec<f64>,
    marks: Vec<u8>,
    slots: Vec<f32>,
}

impl Room {
    /// A room of `n` slots, all free; 4.1 MiB a slot.
    pub fn new(n: usize) -> Self {
        let mut room = Self { rates: vec![0.0; n], marks: vec![0; n], slots: vec![0.0; n * SET_LENGTH] };
        let opened = Refusal::of(boundary::room_open(&mut room.rates, &mut room.marks, &room.slots));
        opened.expect("the lengths agree");
        room
    }

    /// The number of the slot that has the set from now on until the desk gives it up. Asking again changes nothing.
    /// Refused by 1 for a rate outside 1 to 2, and by 16 where every slot is held and none has this rate and mode.
    pub fn ask(&mut self, desk: Desk, rate: f64, mode: Mode) -> Result<usize, Refusal> {
        let mut slot = 0;
        let (rates, marks, slots) = (&mut self.rates, &mut self.marks, &mut self.slots);
        Refusal::of(boundary::room_ask(desk as u8, rate, mode as u8, rates, marks, slots, &mut slot))?;
        Ok(slot)
    }

    /// Refused by 17 where the desk does not hold the set.
    pub fn give_up(&mut self, desk: Desk, rate: f64, mode: Mode) -> Result<(), Refusal> {
        Refusal::of(boundary::room_give_up(desk as u8, rate, mode as u8, &self.rates, &mut self.marks, &self.slots))
    }

    /// The room as a desk's call reads it.
    pub fn read(&self) -> RoomRead<'_> {
        RoomRead { rates: &self.rates, marks: &self.marks, slots: &self.slots }
    }
}
