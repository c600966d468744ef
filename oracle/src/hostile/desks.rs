//! A desk's call of the quality reader, over slots that lie in memory that cannot be written: its number beside a
//! plain reckoning of the room and the quality reader's own number, its sample beside that reader's where both read the
//! same floats. A call that tells has its absent taps beside the plain reckoning of that reader's.

use super::{
    bank::{numbers, reader, Call},
    memory::Lent,
    pool::{SET, SETS},
    readers::left,
    told::over_bank,
    turn::Turn,
};
use crate::Export;
use boundary::{self as b, Caller, QualityReader, RoomRead};

pub const EXPORTS: &[Export] = &[
    ("fugnadri_desk_process", |t| process(t, false, false)),
    ("fugnadri_desk_process_rate_aware", |t| process(t, true, false)),
    ("fugnadri_desk_process_told", |t| process(t, false, true)),
    ("fugnadri_desk_process_rate_aware_told", |t| process(t, true, true)),
];

/// W4j. Whether a room of these slots is in its ranges.
pub fn fine(rates: &[f64], marks: &[u8]) -> bool {
    let held = rates.iter().zip(marks).filter(|(_, m)| **m != 0).map(|(r, m)| (*r, *m >= 4));
    let held: Vec<(f64, bool)> = held.collect();
    let twice = |k: usize| held[..k].contains(&held[k]);
    let known = rates.iter().zip(marks).all(|(r, m)| *m == 0 || *m < 8 && *m != 4 && (1.0..=2.0).contains(r));
    known && !(0..held.len()).any(twice)
}

/// The first slot in which the desk holds the set of a rate.
fn slot(by: Caller, room: RoomRead, rate: f64) -> Option<usize> {
    let bit = by.desk;
    room.rates.iter().zip(room.marks).position(|(r, m)| m & bit != 0 && (*m >= 4) == (by.mode == 1) && *r == rate)
}

/// A room of up to as many slots as there are sets to read, mostly of the bank's rates and mostly held.
fn room(t: &mut Turn, max_rate: f64, full: bool) -> (Lent<f64>, Lent<u8>, usize) {
    let any = (t.random.word() % (SETS as u64 + 1)) as usize;
    let slots = if t.random.one_in(4) { any } else { b::bank_steps(max_rate).min(SETS) };
    let mut drawn = || if t.random.one_in(32) { (t.random.word() % 4) as usize } else { slots };
    let [rates, marks, floats] = [drawn(), drawn(), drawn()];
    let floats = floats * SET + t.random.one_in(64) as usize;
    let rates = t.memory.table.lend(&mut t.random, t.memory.doubles, rates);
    let marks = t.memory.words.lend(&mut t.random, t.memory.bytes, marks);
    for (k, rate) in rates.slice().iter_mut().enumerate() {
        *rate = match t.random.word() % 16 {
            0 => t.random.float(),
            1 => t.random.pick(&[1.0, 2.0, max_rate]),
            2 => b::bank_set_rate(max_rate, (t.random.word() % 3) as usize),
            _ => b::bank_set_rate(max_rate, k),
        };
    }
    for mark in marks.slice() {
        *mark = match t.random.word() % 32 {
            0 => t.random.word() as u8,
            1 => 0,
            _ => t.random.pick(&[1, 2, 3, 3, 3]) + 4 * (full != t.random.one_in(32)) as u8,
        };
    }
    (rates, marks, floats)
}

fn process(t: &mut Turn, aware: bool, tells: bool) -> u8 {
    let (mut reader, ring) = reader(t);
    let before = numbers(&reader);
    let max_rate = t.random.ranged(1.0, 1.0 + 0.02 * SETS as f64);
    let mode = if t.random.one_in(32) { t.random.word() as u8 } else { t.random.one_in(4) as u8 };
    let (rates, marks, floats) = room(t, max_rate, mode == 1);
    let given = (rates.slice().to_vec(), marks.slice().to_vec());
    let r = &mut t.random;
    let slots = t.memory.sets.last::<f32>(floats.min(SETS * SET + 1));
    let room = RoomRead { rates: rates.slice(), marks: marks.slice(), slots };
    let desk = if r.one_in(32) { r.word() as u8 } else { 1 + r.one_in(2) as u8 };
    let by = Caller { desk, mode };
    let (input, delay, quality) = (r.sample() as f32, r.delay(ring.slice().len()), r.count(0, 3) as u8);
    let rate = match (aware, r.one_in(16)) {
        (false, _) => max_rate,
        (true, true) => r.float(),
        (true, false) => r.ranged(1.0, max_rate),
    };
    // the quality reader's own call over a bank of the right length, on a copy
    let length = b::bank_length(max_rate);
    let bank = t.memory.sets.last::<f32>(length.min(SETS * SET + 1));
    let mut beside = QualityReader::clone(&reader);
    let mut right = 0.0;
    let own = beside.process_rate_aware(bank, max_rate, input, delay, quality, rate, &mut right);
    let mut sample = 0.0;
    let asked = Call { sets: bank, max_rate, input, delay, quality };
    let number = t.value(|t, v: &mut f32| {
        let number = match (aware, tells) {
            (true, false) => reader.desk_process_rate_aware(by, room, max_rate, input, delay, quality, rate, v),
            (false, false) => reader.desk_process(by, room, max_rate, input, delay, quality, v),
            (true, true) => over_bank(t, &mut reader, &asked, rate, |r, a| {
                r.desk_process_rate_aware_told(by, room, max_rate, input, delay, quality, rate, v, a)
            }),
            (false, true) => over_bank(t, &mut reader, &asked, rate, |r, a| {
                r.desk_process_told(by, room, max_rate, input, delay, quality, v, a)
            }),
        };
        sample = *v;
        number
    });
    let (_, c) = b::bank_choose(max_rate, rate);
    let [safe, tighter] = [c.safe, c.tighter].map(|set| slot(by, room, b::bank_set_rate(max_rate, set)));
    let agree = room.rates.len() == room.marks.len() && room.slots.len() == room.marks.len() * SET;
    let there = agree && (rate.is_nan() || safe.is_some() && tighter.is_some());
    let due = match own {
        _ if !(1..=2).contains(&by.desk) || by.mode > 1 => 1,
        1 => 1,
        2 => 2,
        _ if !there => 2,
        3 => 3,
        _ if !fine(room.rates, room.marks) => 3,
        own => own,
    };
    // a bank of more sets is not at hand
    let beyond = length > SETS * SET;
    t.hold(beyond || number == due, "another refusal is due");
    let same = room.slots.len() == bank.len() && (safe, tighter) == (Some(c.safe), Some(c.tighter));
    t.hold(number != 0 || !same || sample.to_bits() == right.to_bits(), "the sample is another one than over the bank");
    let alike = beyond || number != 0 || numbers(&reader) == numbers(&beside);
    t.hold(alike, "an accepted call leaves another state than over a bank");
    t.hold(number == 0 || numbers(&reader) == before, "a refused call has changed the state");
    let bits = |x: &[f64]| x.iter().map(|r| r.to_bits()).collect::<Vec<_>>();
    let kept = bits(rates.slice()) == bits(&given.0) && marks.slice()[..] == given.1[..];
    t.hold(kept && rates.zone_kept() && marks.zone_kept(), "a call has changed the room");
    left(t, number, &ring, before.1, reader.accepted, input);
    number
}
