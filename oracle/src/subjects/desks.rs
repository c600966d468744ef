//! W4, demand 2. Two desks over one room of tables, each beside one of the original's readers over a bank of its own:
//! random asks, give-ups and calls of both. A call answers what the original's reader does, bit for bit, where the desk
//! holds the two sets that the original chooses, and is refused by 2 where it does not, whatever the other desk holds.
//! One call in two tells its absent taps, beside the indices that the original's bank asks for (W7).
//! The room is opened, asked and given up by its exports, beside a plain reckoning of the rates and the marks. A set
//! takes long to build, so one ask in eight rounds builds its own, which is then the bank's, bit for bit; the others
//! that are due to build are given the bank's floats.

use crate::banks::{self, Bank};
use crate::context::Context;
use crate::delays;
use crate::random::Random;
use crate::shape::bits32;
use crate::subjects::{returning::Reckoned, told::absent_of};
use boundary::{self as b, Absent, Caller, QualityReader, RoomRead};
use wow_dsp::{QualityMode, QualityVariableDelayF32};

const MODES: [QualityMode; 4] = [QualityMode::Draft, QualityMode::Normal, QualityMode::Hq, QualityMode::Ultra];
const SET: usize = 1_081_648;
const SLOTS: usize = 4;

/// The slots: a rate, a mark and the floats of a set each.
struct Room {
    rates: Vec<f64>,
    marks: Vec<u8>,
    slots: Vec<f32>,
}

impl Room {
    fn lent(&self) -> RoomRead<'_> {
        RoomRead { rates: &self.rates, marks: &self.marks, slots: &self.slots }
    }

    fn place(&self, rate: f64) -> Option<usize> {
        (0..SLOTS).find(|k| self.marks[*k] != 0 && self.rates[*k] == rate)
    }

    fn holds(&self, desk: u8, rate: f64) -> bool {
        self.place(rate).is_some_and(|k| self.marks[k] & desk != 0)
    }

    /// Shares the set where it is there, otherwise builds it in the first free slot; 16 where there is none.
    fn ask(&mut self, desk: u8, rate: f64, set: &[f32], built: &mut bool) {
        let (there, free) = (self.place(rate), self.marks.iter().position(|m| *m == 0));
        let (mut rates, mut marks) = (self.rates.clone(), self.marks.clone());
        let due = match (there, free) {
            (Some(k), _) => {
                marks[k] |= desk;
                (0, k)
            }
            (None, Some(k)) => {
                (rates[k], marks[k]) = (rate, desk);
                (0, k)
            }
            (None, None) => (16, 0),
        };
        let anew = there.is_none() && free.is_some();
        if anew && *built {
            (self.rates, self.marks) = (rates, marks);
            self.slots[due.1 * SET..][..SET].copy_from_slice(set);
            return;
        }
        *built |= anew;
        let mut slot = usize::MAX;
        let number = b::room_ask(desk, rate, 0, &mut self.rates, &mut self.marks, &mut self.slots, &mut slot);
        let floats = !anew || self.slots[due.1 * SET..][..SET].iter().zip(set).all(|(x, y)| bits32(*x) == bits32(*y));
        self.hold((number, slot) == due && floats, "asks", desk, rate, &rates, &marks);
    }

    fn give_up(&mut self, desk: u8, rate: f64) {
        let mut marks = self.marks.clone();
        let due = match self.place(rate).filter(|k| self.marks[*k] & desk != 0) {
            Some(k) => {
                marks[k] &= !desk;
                0
            }
            None => 17,
        };
        let number = b::room_give_up(desk, rate, 0, &self.rates, &mut self.marks, &self.slots);
        self.hold(number == due, "gives up", desk, rate, &self.rates, &marks);
    }

    fn hold(&self, answered: bool, what: &str, desk: u8, rate: f64, rates: &[f64], marks: &[u8]) {
        if !answered || self.rates != rates || self.marks != marks {
            println!("DIFFERENCE where desk {desk} {what} {rate:e}: due are rates {rates:?}, marks {marks:?}");
            println!("  the room has rates {:?}, marks {:?}", self.rates, self.marks);
            std::process::exit(1)
        }
    }
}

struct Desk {
    number: u8,
    bank: &'static Bank,
    rust: QualityVariableDelayF32,
    port: QualityReader,
    fade: Reckoned,
}

impl Desk {
    fn open(number: u8, bank: &'static Bank, random: &mut Random, fade: u32) -> Self {
        let (maximum, margin, quality) = (random.within(8, 40) as usize, 64, random.within(0, 3) as u8);
        let rust = QualityVariableDelayF32::new(maximum, margin, bank.rust.clone(), MODES[quality as usize], fade);
        let ring = vec![f32::NAN; (maximum + 2 * margin + 8).next_power_of_two()];
        let mut port = QualityReader {
            maximum,
            margin,
            accepted: 0,
            current: quality,
            target: quality,
            crossfade_position: 0,
            crossfade_samples: fade,
            rule: 0,
            direction: 0,
            ring,
        };
        assert_eq!(port.open(quality), 0, "settings in range");
        Desk { number, bank, rust, port, fade: Reckoned::new(false, fade, quality) }
    }

    /// One of its bank's sets: the rate, and the floats.
    fn set(&self, random: &mut Random) -> (f64, &'static [f32]) {
        let sets = b::bank_steps(self.bank.max_rate) as i64;
        let k = random.within(0, sets - 1) as usize;
        (b::bank_set_rate(self.bank.max_rate, k), &self.bank.sets()[k * SET..][..SET])
    }

    /// Whether the call was served.
    fn call(&mut self, random: &mut Random, room: &Room) -> bool {
        let (input, delay) = (delays::plain(random) as f32, random.unit() * 6.0);
        let (quality, max_rate) = (random.within(0, 3) as u8, self.bank.max_rate);
        let rate = 1.0 + (max_rate - 1.0) * random.unit() * 1.25;
        let by = Caller { desk: self.number, mode: 0 };
        let (own, tells) = (random.within(0, 3) == 0, random.coin());
        let (mut sample, mut absent) = (f32::NAN, Absent { unwritten: 9, ahead: 9, overwritten: 9 });
        let newest = self.port.accepted;
        let (p, lent, v, a) = (&mut self.port, room.lent(), &mut sample, &mut absent);
        let number = match (own, tells) {
            (true, false) => p.desk_process(by, lent, max_rate, input, delay, quality, v),
            (false, false) => p.desk_process_rate_aware(by, lent, max_rate, input, delay, quality, rate, v),
            (true, true) => p.desk_process_told(by, lent, max_rate, input, delay, quality, v, a),
            (false, true) => p.desk_process_rate_aware_told(by, lent, max_rate, input, delay, quality, rate, v, a),
        };
        let read_at = if own { max_rate } else { rate };
        let (_, c) = b::bank_choose(max_rate, read_at);
        let held = [c.safe, c.tighter].iter().all(|k| room.holds(self.number, b::bank_set_rate(max_rate, *k)));
        let missing = match held {
            true => absent_of(self.bank, self.fade.call(quality), newest, self.port.ring.len(), delay, read_at),
            false => Absent::default(),
        };
        let mode = MODES[quality as usize];
        let right = match (held, own) {
            (false, _) => 0.0,
            (true, true) => self.rust.process_sample(input, delay, mode),
            (true, false) => self.rust.process_sample_rate_aware(input, delay, mode, rate),
        };
        let due = if held { 0 } else { 2 };
        let count = self.port.accepted == self.rust.write_index as u64;
        let quality_of = |mode| MODES.iter().position(|m| *m == mode).unwrap() as u8;
        let fade = self.port.current == quality_of(self.rust.current_quality)
            && self.port.target == quality_of(self.rust.target_quality)
            && self.port.crossfade_position == self.rust.crossfade_position;
        if number != due || bits32(sample) != bits32(right) || !count || !fade || tells && absent != missing {
            println!("DIFFERENCE at a call of desk {}: number {number}, due {due}", self.number);
            println!("  the original {:X}, Fugnadri {:X}", bits32(right), bits32(sample));
            println!("  input {input:e}, delay {delay:e}, quality {quality}, rate {rate:e} of {max_rate}");
            println!("  rates {:?}, marks {:?}", room.rates, room.marks);
            println!("  a call that tells: {tells}; due are {missing:?}, told {absent:?}");
            std::process::exit(1)
        }
        held
    }
}

pub fn run(context: &mut Context) {
    const EVENTS: u64 = 1024;
    let random = &mut context.random;
    let mut room = Room { rates: vec![f64::NAN; SLOTS], marks: vec![9; SLOTS], slots: vec![0.0; SLOTS * SET] };
    assert_eq!(b::room_open(&mut room.rates, &mut room.marks, &room.slots), 0, "three lengths that agree");
    let rates = [0, 1].map(|k| banks::SMALL[(context.round as usize + k) % 3]);
    let fade = [0, 3, 960][context.round as usize % 3];
    let mut desks = [1, 2].map(|k| Desk::open(k, banks::bank(rates[k as usize - 1]), random, fade));
    let (mut served, mut missing, mut asked, mut built) = (0, 0, 0, context.round % 8 != 0);
    for _ in 0..EVENTS {
        let desk = &mut desks[random.within(0, 1) as usize];
        match random.within(0, 15) {
            0 | 1 => {
                let (rate, set) = desk.set(random);
                room.ask(desk.number, rate, set, &mut built);
                asked += 1;
            }
            2 => {
                room.give_up(desk.number, desk.set(random).0);
                asked += 1;
            }
            _ if desk.call(random, &room) => served += 1,
            _ => missing += 1,
        }
    }
    context.count("desks", "calls served over one room, one in two with its absent taps", served, None);
    context.count("desks", "calls with a set missing", missing, None);
    context.count("desks", "asks and give-ups", asked, None);
}
