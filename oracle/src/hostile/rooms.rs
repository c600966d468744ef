//! A room of tables: opening it, asking for a set and giving it up, beside a plain reckoning of its rates and marks. A
//! call that is not due to build a set is lent floats that cannot be written.

use super::{
    desks::fine,
    memory::Lent,
    pool::{SET, SETS},
    turn::Turn,
};
use crate::Export;
use boundary as b;

pub const EXPORTS: &[Export] =
    &[("fugnadri_room_open", open), ("fugnadri_room_ask", ask), ("fugnadri_room_give_up", give_up)];

/// Few rates, so that a set is often there already.
const RATES: [f64; 5] = [1.0, 1.25, 1.5, 2.0, 1.0000000000000002];

/// A room's rates and marks, and how many floats are lent with them.
struct Room {
    rates: Lent<f64>,
    marks: Lent<u8>,
    floats: usize,
}

/// A set that a desk wants.
struct Wish {
    desk: u8,
    rate: f64,
    mode: u8,
}

/// What the rates and the marks are reckoned to be: every bit counts.
type Slots = (Vec<u64>, Vec<u8>);

impl Room {
    /// Up to as many slots as there are sets to read, mostly held.
    fn new(t: &mut Turn) -> Self {
        let slots = (t.random.word() % (SETS as u64 + 1)) as usize;
        let mut drawn = || if t.random.one_in(32) { (t.random.word() % 4) as usize } else { slots };
        let [rates, marks, floats] = [drawn(), drawn(), drawn()];
        let floats = floats * SET + t.random.one_in(64) as usize;
        let rates = t.memory.table.lend(&mut t.random, t.memory.doubles, rates);
        let marks = t.memory.words.lend(&mut t.random, t.memory.bytes, marks);
        let r = &mut t.random;
        rates.slice().iter_mut().for_each(|x| *x = if r.one_in(32) { r.float() } else { r.pick(&RATES) });
        for mark in marks.slice() {
            *mark = match r.word() % 32 {
                0 => r.word() as u8,
                1 => r.pick(&[4, 8]),
                2..=4 => 0,
                _ => r.pick(&[1, 2, 3, 5, 6, 7]),
            };
        }
        Room { rates, marks, floats }
    }

    fn slots(&self) -> Slots {
        (self.rates.slice().iter().map(|x| x.to_bits()).collect(), self.marks.slice().to_vec())
    }

    fn agree(&self) -> bool {
        let slots = self.marks.slice().len();
        self.rates.slice().len() == slots && self.floats == slots * SET
    }

    /// The first slot whose mark and rate pass a test.
    fn first(&self, test: impl Fn(u8, f64) -> bool) -> Option<usize> {
        self.marks.slice().iter().zip(self.rates.slice()).position(|(m, r)| test(*m, *r))
    }

    /// The number by which any wish is refused in this room, 0 for none.
    fn refuses(&self, w: &Wish) -> u8 {
        match () {
            _ if !((1..=2).contains(&w.desk) && w.mode <= 1 && (1.0..=2.0).contains(&w.rate)) => 1,
            _ if !self.agree() => 2,
            _ if !fine(self.rates.slice(), self.marks.slice()) => 3,
            _ => 0,
        }
    }

    fn shared(&self, w: &Wish) -> Option<usize> {
        self.first(|m, r| w.is(m, r))
    }

    fn free(&self) -> Option<usize> {
        self.first(|m, _| m == 0)
    }

    /// Whether an ask builds a set.
    fn builds(&self, w: &Wish) -> bool {
        self.refuses(w) == 0 && self.shared(w).is_none() && self.free().is_some()
    }

    /// Holds what a call left to what was reckoned, and the bytes beside it.
    fn left(&self, t: &Turn, due: &Slots) {
        t.hold(self.slots() == *due, "a call leaves other rates or marks than a plain reckoning");
        t.hold(self.rates.zone_kept() && self.marks.zone_kept(), "something beside the rates or the marks is written");
    }
}

impl Wish {
    fn new(t: &mut Turn) -> Self {
        let r = &mut t.random;
        let desk = if r.one_in(32) { r.word() as u8 } else { 1 + r.one_in(2) as u8 };
        let mode = if r.one_in(32) { r.word() as u8 } else { r.one_in(2) as u8 };
        let rate = if r.one_in(8) { r.ranged(1.0, 2.0) } else { r.pick(&RATES) };
        Wish { desk, rate, mode }
    }

    /// Whether a held slot has the set.
    fn is(&self, mark: u8, rate: f64) -> bool {
        mark != 0 && (mark >= 4) == (self.mode == 1) && rate == self.rate
    }
}

fn open(t: &mut Turn) -> u8 {
    let room = Room::new(t);
    let mut due = room.slots();
    let number = b::room_open(room.rates.slice(), room.marks.slice(), t.memory.sets.last(room.floats));
    t.hold(number == if room.agree() { 0 } else { 2 }, "another refusal is due");
    if number == 0 {
        due.0.fill(0);
        due.1.fill(0);
    }
    room.left(t, &due);
    number
}

fn give_up(t: &mut Turn) -> u8 {
    let (room, w) = (Room::new(t), Wish::new(t));
    let own = room.first(|m, r| w.is(m, r) && m & w.desk != 0);
    let mut due = room.slots();
    let refused = match (room.refuses(&w), own) {
        (0, None) => 17,
        (0, Some(k)) => {
            let rest = due.1[k] & !w.desk;
            due.1[k] = if rest == 4 { 0 } else { rest };
            0
        }
        (n, _) => n,
    };
    let slots = t.memory.sets.last(room.floats);
    let number = b::room_give_up(w.desk, w.rate, w.mode, room.rates.slice(), room.marks.slice(), slots);
    t.hold(number == refused, "another refusal is due");
    room.left(t, &due);
    number
}

fn ask(t: &mut Turn) -> u8 {
    // a set takes long to build: the first call in 100,000 builds one
    let whole = t.index % 100_000 == 0;
    let (mut room, w) = loop {
        let (room, w) = (Room::new(t), Wish::new(t));
        if !whole || room.builds(&w) {
            break (room, w);
        }
    };
    // elsewhere there is a float too many, and the call is refused
    room.floats += (!whole && room.builds(&w)) as usize;
    let (shared, free) = (room.shared(&w), room.free());
    let mut due = room.slots();
    let refused = match (room.refuses(&w), shared, free) {
        (0, None, None) => 16,
        (0, Some(k), _) => {
            due.1[k] |= w.desk;
            0
        }
        (0, None, Some(k)) => {
            (due.0[k], due.1[k]) = (w.rate.to_bits(), w.desk + 4 * w.mode);
            0
        }
        (n, ..) => n,
    };
    let place = shared.or(free).unwrap_or(0);
    let lent = whole.then(|| t.memory.ring.lend(&mut t.random, t.memory.floats, room.floats));
    let slots = match &lent {
        Some(lent) => lent.slice(),
        None => t.memory.sets.last_mut(room.floats),
    };
    let mut slot = 0;
    let number = t.value_by(17, |_, v: &mut usize| {
        let number = b::room_ask(w.desk, w.rate, w.mode, room.rates.slice(), room.marks.slice(), slots, v);
        slot = *v;
        number
    });
    t.hold(number == refused, "another refusal is due");
    t.hold(number != 0 || slot == place, "another slot is due");
    room.left(t, &due);
    if let Some(lent) = lent {
        let mut set = vec![0.0; SET];
        t.hold(b::bank_build_set_in(w.rate, w.mode, &mut set) == 0, "the set is refused by itself");
        let at = place * SET;
        let same = lent.slice()[at..at + SET].iter().zip(&set).all(|(x, y)| x.to_bits() == y.to_bits());
        t.hold(same, "the slot has other floats than the set");
        t.hold(lent.kept_but(at..at + SET), "another slot, or something beside them, is written");
    }
    number
}
