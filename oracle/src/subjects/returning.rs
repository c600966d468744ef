//! W9. Both rules for a change of quality beside a plain reckoning over 000's own readings: four of the original's
//! readers, each plain in its quality, are fed alike, and the reckoning says which of them a call reads and how it mixes
//! them. Every change to every quality, and from there to every other, at every place of fades of 1, 2, 3 and 5, then as
//! many calls as the second rule may take to settle; runs of random requests with refused calls among them. By the second
//! rule no quality's share changes by more than one step from an accepted call to the next.

use crate::banks::{self, Bank};
use crate::context::Context;
use crate::delays;
use crate::qualities::{Call, Port, HOSTS};
use crate::random::Random;
use crate::shape::bits32;
use host::{lenient, strict};
use std::iter::repeat;
use wow_dsp::{QualityMode, QualityVariableDelayF32};

pub const MODES: [QualityMode; 4] = [QualityMode::Draft, QualityMode::Normal, QualityMode::Hq, QualityMode::Ultra];

/// What is read: plain in `to`, or from one to the other by a weight out of the length.
#[derive(Clone, Copy)]
pub struct Read {
    pub from: u8,
    pub to: u8,
    pub weight: Option<u32>,
}

/// The fade as a reader holds it.
pub struct Reckoned {
    returning: bool,
    length: u32,
    current: u8,
    target: u8,
    place: u32,
    back: bool,
}

impl Reckoned {
    /// What a reader that is opened with a quality holds.
    pub fn new(returning: bool, length: u32, quality: u8) -> Self {
        Reckoned { returning, length, current: quality, target: quality, place: length, back: false }
    }

    pub fn call(&mut self, asked: u8) -> Read {
        let fading = self.current != self.target;
        if self.returning && fading {
            self.back = asked != self.target && (asked == self.current || self.back);
            if self.back {
                self.place -= 1;
                let (from, to) = (self.current, self.target);
                if self.place > 0 {
                    return Read { from, to, weight: Some(self.place) };
                }
                (self.target, self.place, self.back) = (from, self.length, false);
                return Read { from, to: from, weight: None };
            }
        } else if asked != self.target {
            (self.target, self.place) = (asked, 0);
        }
        let (from, to) = (self.current, self.target);
        if from == to || self.length == 0 {
            self.current = to;
            return Read { from: to, to, weight: None };
        }
        self.place += 1;
        if self.place == self.length {
            self.current = to;
        }
        Read { from, to, weight: Some(self.place) }
    }

    /// Each quality's share of a call, out of the length.
    fn shares(&self, read: Read) -> [u32; 4] {
        let mut shares = [0; 4];
        let weight = read.weight.unwrap_or(self.length);
        shares[read.to as usize] = weight;
        shares[read.from as usize] += self.length - weight;
        shares
    }
}

/// A reader of host/ by either rule, lenient where that is asked for and its bank is there.
pub fn opened(
    bank: &'static Bank,
    leniently: bool,
    returning: bool,
    maximum: usize,
    margin: usize,
    mode: host::QualityMode,
    length: u32,
) -> Box<dyn Port> {
    match bank.lenient.clone().filter(|_| leniently) {
        Some(bank) => Box::new(match returning {
            false => lenient::QualityVariableDelayF32::new(maximum, margin, bank, mode, length),
            true => lenient::QualityVariableDelayF32::new_returning(maximum, margin, bank, mode, length),
        }),
        None => {
            let bank = bank.strict.clone();
            let port = match returning {
                false => strict::QualityVariableDelayF32::new(maximum, margin, bank, mode, length),
                true => strict::QualityVariableDelayF32::new_returning(maximum, margin, bank, mode, length),
            };
            Box::new(port.expect("settings in range"))
        }
    }
}

struct Session {
    plain: Vec<QualityVariableDelayF32>,
    port: Box<dyn Port>,
    fade: Reckoned,
    last: Option<[u32; 4]>,
}

impl Session {
    fn open(bank: &'static Bank, random: &mut Random, returning: bool, length: u32) -> Self {
        let (maximum, margin) = (random.within(8, 40) as usize, 64);
        let quality = random.within(0, 3) as u8;
        let plain = MODES.iter().map(|mode| QualityVariableDelayF32::new(maximum, margin, bank.rust.clone(), *mode, 0));
        let mode = HOSTS[quality as usize];
        let port = opened(bank, random.coin(), returning, maximum, margin, mode, length);
        let fade = Reckoned::new(returning, length, quality);
        let mut session = Session { plain: plain.collect(), port, fade, last: None };
        session.same("opening", None);
        session
    }

    fn call(&mut self, call: &Call) -> Read {
        let rate = call.rate.expect("a rate");
        let read = self.fade.call(call.quality);
        let answers: Vec<f32> = self
            .plain
            .iter_mut()
            .zip(MODES)
            .map(|(r, mode)| r.process_sample_rate_aware(call.input, call.delay, mode, rate))
            .collect();
        let (a, b) = (answers[read.from as usize], answers[read.to as usize]);
        let right = match read.weight {
            None => b,
            Some(weight) => a + (b - a) * (weight as f32 / self.fade.length as f32).min(1.0),
        };
        let (number, answer) = self.port.process(call);
        if number != self.port.tells(0).0 || bits32(answer) != bits32(right) {
            println!("  reckoned {:X}, Fugnadri {:X}, number {number}", bits32(right), bits32(answer));
            self.differs("a call", Some(call));
        }
        let shares = self.fade.shares(read);
        if let Some(last) = self.last.replace(shares).filter(|_| self.fade.returning) {
            if last.iter().zip(shares).any(|(a, b)| a.abs_diff(b) > 1) && self.fade.length > 0 {
                self.differs("a jump of the reckoning itself", Some(call));
            }
        }
        self.same("a call", Some(call));
        read
    }

    /// A refused call leaves everything, and the quality that it asked for is forgotten.
    fn refused(&mut self, call: &Call) {
        let (told, _) = self.port.tells(4);
        if self.port.process(call) != (told, 0.0) {
            self.differs("a refused call", Some(call));
        }
        self.same("a refused call", Some(call));
    }

    fn same(&mut self, what: &str, call: Option<&Call>) {
        let (f, count) = (&self.fade, self.plain[0].write_index as u64);
        let right = (count, f.current, f.target, f.place, f.returning as u8, f.back as u8);
        let p = self.port.state();
        let found = (p.accepted, p.current, p.target, p.crossfade_position, p.rule, p.direction);
        if found != right {
            println!("  count, current, target, place, rule, direction: reckoned {right:?}, Fugnadri {found:?}");
            self.differs(what, call);
        }
    }

    fn differs(&self, what: &str, call: Option<&Call>) {
        println!(
            "DIFFERENCE in the quality reader of host/, {}, at {what}; fade of {}",
            self.port.tells(0).1,
            self.fade.length
        );
        if let Some(c) = call {
            println!("  input {:e}, delay {:e}, quality {}, rate {:?}", c.input, c.delay, c.quality, c.rate);
        }
        std::process::exit(1)
    }
}

fn drawn(random: &mut Random, quality: u8) -> Call {
    Call {
        input: delays::plain(random) as f32,
        delay: random.unit() * 6.0,
        quality,
        rate: Some(1.0 + 0.02 * random.unit()),
    }
}

/// Three qualities one after the other: the first two for every number of calls up to past the fade's end, the last until
/// the second rule has settled.
fn changes(random: &mut Random, bank: &'static Bank, returning: bool) -> u64 {
    let mut compared = 0;
    for length in [1, 2, 3, 5] {
        let places = || 0..=length + 1;
        for (one, two) in places().flat_map(|a| places().map(move |b| (a, b))) {
            for codes in 0..64u8 {
                let mut session = Session::open(bank, random, returning, length);
                let [first, second, third] = [codes & 3, codes >> 2 & 3, codes >> 4];
                let asked = repeat(first).take(one as usize).chain(repeat(second).take(two as usize));
                let mut settled = None;
                for quality in asked.chain(repeat(third).take(2 * length as usize + 2)) {
                    settled = Some(session.call(&drawn(random, quality)));
                    compared += 1;
                }
                if settled.map_or(true, |read| read.weight.is_some() || read.to != third) {
                    session.differs("the call after twice the length", None);
                }
            }
        }
    }
    compared
}

pub fn run(context: &mut Context) {
    const CALLS: u64 = 2048;
    let bank = banks::bank(banks::SMALL[context.round as usize % 3]);
    for (kind, every, returning) in [
        ("the ported rule", "the ported rule, every change at every place", false),
        ("the second rule", "the second rule, every change at every place", true),
    ] {
        for (length, often) in [(0, 3), (1, 2), (7, 4), (960, 300)] {
            let random = &mut context.random;
            let mut session = Session::open(bank, random, returning, length);
            let (mut refused, mut quality) = (0, random.within(0, 3) as u8);
            for _ in 0..CALLS {
                if random.within(0, often) == 0 {
                    quality = random.within(0, 3) as u8;
                }
                let mut call = drawn(random, quality);
                if random.within(0, 9) == 0 {
                    (call.input, call.quality) = (f32::NAN, random.within(0, 3) as u8);
                    session.refused(&call);
                    refused += 1;
                } else {
                    session.call(&call);
                }
            }
            context.count("change of quality", kind, CALLS - refused, None);
            context.count("change of quality", "calls refused in between", refused, None);
        }
        if context.round % 16 == 0 {
            let compared = changes(&mut context.random, bank, returning);
            context.count("change of quality", every, compared, None);
        }
    }
}
