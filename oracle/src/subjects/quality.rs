//! Q1 to Q3, T4, T5. The reader whose quality may change, call by call beside the original's: every
//! answer, the count, both qualities, the fade place and the ring. Fades of length 0, 1, 2 and 960,
//! every change of quality at every place of a short one, rates at, between and outside the sets'. The
//! port is host/'s reader, in one of its two ways.

use crate::banks::{self, Bank};
use crate::context::Context;
use crate::delays::{self, END};
use crate::qualities::{Call, Port, HOSTS};
use crate::random::Random;
use crate::shape::bits32;
use host::{compare::QualityReader, lenient, strict};
use wow_dsp::{QualityMode, QualityVariableDelayF32};

const MODES: [QualityMode; 4] = [QualityMode::Draft, QualityMode::Normal, QualityMode::Hq, QualityMode::Ultra];

struct Session {
    bank: &'static Bank,
    rust: QualityVariableDelayF32,
    port: Box<dyn Port>,
    elements: u64,
}

fn code(mode: QualityMode) -> u8 {
    MODES.iter().position(|m| *m == mode).unwrap() as u8
}

impl Session {
    fn open(bank: &'static Bank, random: &mut Random, crossfade_samples: u32) -> Self {
        let (maximum, margin) = delays::settings(random);
        let quality = random.within(0, 3) as u8;
        let rust = QualityVariableDelayF32::new(maximum, margin, bank.rust.clone(), MODES[quality as usize], crossfade_samples);
        let mode = HOSTS[quality as usize];
        let port: Box<dyn Port> = match bank.lenient.clone().filter(|_| random.coin()) {
            Some(bank) => Box::new(lenient::QualityVariableDelayF32::new(maximum, margin, bank, mode, crossfade_samples)),
            None => {
                let port = strict::QualityVariableDelayF32::new(maximum, margin, bank.strict.clone(), mode, crossfade_samples);
                Box::new(port.expect("settings in range"))
            }
        };
        let mut session = Session { bank, rust, port, elements: 0 };
        session.whole("new");
        // opening must set all of it
        let state = session.port.state();
        (state.accepted, state.current, state.target, state.crossfade_position) = (random.word(), 9, 9, 77);
        (state.rule, state.direction) = (9, 9);
        state.ring.fill(f32::NAN);
        let opened = state.open(quality);
        session.hold(opened == 0, "open", None);
        session.whole("open");
        session
    }

    fn due(&mut self, call: &Call) -> u8 {
        match () {
            _ if call.quality > 3 => 1,
            _ if !call.input.is_finite() => 4,
            _ if !call.delay.is_finite() || call.delay < 0.0 => 5,
            _ if call.delay > END => 6,
            _ if call.rate.is_some_and(f64::is_nan) => 7,
            _ if self.port.state().accepted == END as u64 => 8,
            _ => 0,
        }
    }

    fn call(&mut self, call: &Call) -> u8 {
        let (number, count) = (self.due(call), self.port.state().accepted);
        let place = count as usize & (self.rust.buffer.len() - 1);
        let known = number == 0 || number == 4 || number == 5;
        let right = match call.rate {
            _ if !known => 0.0,
            None => self.rust.process_sample(call.input, call.delay, MODES[call.quality as usize]),
            Some(rate) => self.rust.process_sample_rate_aware(call.input, call.delay, MODES[call.quality as usize], rate),
        };
        let ((told, _), (given, answer)) = match call.quality {
            0..=3 => (self.port.tells(number), self.port.process(call)),
            // host/ has no such quality: its own state is handed to the export
            _ => {
                let (bank, state, mut answer) = (self.bank, self.port.state(), f32::NAN);
                let (sets, max) = (bank.sets(), bank.max_rate);
                let given = match call.rate {
                    None => state.process(sets, max, call.input, call.delay, call.quality, &mut answer),
                    Some(rate) => state.process_rate_aware(sets, max, call.input, call.delay, call.quality, rate, &mut answer),
                };
                ((number, ""), (given, answer))
            }
        };
        let stored = bits32(self.port.state().ring[place]) == bits32(self.rust.buffer[place]);
        if given != told || bits32(answer) != bits32(right) || !stored || !self.fields() {
            println!("  Rust {:X}, Fugnadri {:X}; number due {told}, given {given}", bits32(right), bits32(answer));
            self.hold(false, "process", Some(call));
        }
        number
    }

    fn fields(&mut self) -> bool {
        let (r, p) = (&self.rust, self.port.state());
        p.accepted == r.write_index as u64
            && [p.current, p.target] == [code(r.current_quality), code(r.target_quality)]
            && p.crossfade_position == r.crossfade_position
            && [p.rule, p.direction] == [0, 0]
    }

    fn reset(&mut self) {
        self.rust.reset();
        self.port.reset();
        self.whole("reset");
    }

    fn whole(&mut self, what: &str) {
        let ring = &self.port.state().ring;
        let same = ring.len() == self.rust.buffer.len() && ring.iter().zip(&self.rust.buffer).all(|(a, b)| bits32(*a) == bits32(*b));
        self.elements += self.rust.buffer.len() as u64;
        let fields = self.fields();
        self.hold(same && fields, what, None);
    }

    /// What an open reader never has, or is never lent: refused by 1, 2 and 3, and nothing changes.
    fn damaged(&mut self) {
        let sets = self.bank.sets();
        let max = self.bank.max_rate;
        let short = &sets[1..];
        let good = self.port.state().clone();
        let with = |change: fn(&mut QualityReader)| {
            let mut reader = good.clone();
            change(&mut reader);
            reader
        };
        // what a call is refused by, and what a reset is, which is lent no bank and asks for no quality
        let cases: Vec<([u8; 2], QualityReader, &[f32], f64, u8)> = vec![
            ([1, 1], with(|r| r.maximum = (1 << 24) - 7), sets, max, 0),
            ([1, 1], with(|r| (r.crossfade_samples, r.crossfade_position) = (16_777_217, 0)), sets, max, 0),
            ([4, 0], with(|r| (r.crossfade_samples, r.crossfade_position, r.current, r.target) = (16_777_216, 0, 0, 1)), sets, max, 0),
            ([1, 0], good.clone(), sets, 1.0f64.next_down(), 1),
            ([1, 0], good.clone(), sets, f64::NAN, 2),
            ([1, 0], good.clone(), sets, max, 4),
            ([1, 2], with(|r| (r.current, r.ring) = (4, vec![])), sets, max, 255),
            ([2, 2], with(|r| r.ring.truncate(r.ring.len() - 1)), sets, max, 0),
            ([2, 3], with(|r| r.current = 4), short, max, 0),
            ([2, 0], good.clone(), short, max, 0),
            ([3, 3], with(|r| r.accepted = END as u64 + 1), sets, max, 0),
            ([3, 3], with(|r| r.crossfade_position = r.crossfade_samples + 1), sets, max, 3),
            ([3, 3], with(|r| (r.current, r.target, r.crossfade_position) = (0, 1, r.crossfade_samples)), sets, max, 1),
            ([3, 3], with(|r| r.current = 4), sets, max, 0),
            ([3, 3], with(|r| r.target = 255), sets, max, 0),
            ([3, 3], with(|r| r.rule = 2), sets, max, 0),
            ([3, 3], with(|r| r.direction = 1), sets, max, 0),
            ([3, 3], with(|r| (r.rule, r.direction) = (1, 2)), sets, max, 0),
            ([3, 3], with(|r| (r.rule, r.current, r.target, r.crossfade_position) = (1, 0, 1, 0)), sets, max, 0),
            ([3, 3], with(|r| (r.rule, r.direction, r.target) = (1, 1, r.current)), sets, max, 0),
            ([2, 3], with(|r| r.rule = 255), short, max, 0),
            ([1, 3], with(|r| r.direction = 255), sets, max, 4),
        ];
        for (numbers, reader, sets, max, quality) in cases {
            let (mut after, mut answer) = (reader.clone(), f32::NAN);
            let given = after.process_rate_aware(sets, max, f32::NAN, -1.0, quality, f64::NAN, &mut answer);
            let kept = format!("{reader:?}") == format!("{after:?}");
            let reset = after.reset();
            let left = reset == 0 || format!("{reader:?}") == format!("{after:?}");
            if [given, reset] != numbers || answer.to_bits() != 0 || !kept || !left {
                println!("  numbers due {numbers:?}, given {:?}: {:?}", [given, reset], (reader.current, reader.target, quality, max, sets.len()));
                self.hold(false, "a damaged state", None);
            }
        }
    }

    fn hold(&mut self, alike: bool, what: &str, call: Option<&Call>) {
        if !alike {
            println!("DIFFERENCE in the quality reader of host/, {}, at {what}; bank {}", self.port.tells(0).1, self.bank.max_rate);
            let (r, p) = (&self.rust, self.port.state());
            println!("  maximum {}, margin {}, ring {}, fade {}", p.maximum, p.margin, p.ring.len(), p.crossfade_samples);
            let theirs = (r.write_index, code(r.current_quality), code(r.target_quality), r.crossfade_position);
            println!("  count, current, target, fade place after it: Rust {theirs:?}");
            println!("    Fugnadri {:?}", (p.accepted, p.current, p.target, p.crossfade_position));
            if let Some(c) = call {
                println!("  input {:e}, delay {:e}, quality {}, rate {:?}", c.input, c.delay, c.quality, c.rate);
            }
            std::process::exit(1)
        }
    }
}

fn rate(random: &mut Random, bank: &Bank, hostile: bool) -> Option<f64> {
    let own = bank.rust.sets[random.within(0, bank.rust.sets.len() as i64 - 1) as usize].rate;
    Some(match random.within(0, if hostile { 11 } else { 8 }) {
        0 => return None,
        1 => own,
        2 => random.pick(&[own.next_up(), own.next_down()]),
        3 => random.pick(&[1.0, bank.max_rate, 0.5, 3.0]),
        9 => random.pick(&[f64::INFINITY, f64::NEG_INFINITY, 0.0, -0.0]),
        10 => f64::NAN,
        _ => 1.0 + random.unit() * (bank.max_rate - 1.0),
    })
}

fn sample(random: &mut Random, hostile: bool) -> f32 {
    if hostile && random.within(0, 40) == 0 {
        return random.pick(&[f32::NAN, f32::INFINITY, 3e38, -3e38, 1e-45, -0.0]);
    }
    delays::plain(random) as f32
}

/// Calls whose quality changes now and then; how many were refused.
fn calls(session: &mut Session, random: &mut Random, hostile: bool, often: i64, many: u64) -> u64 {
    let (mut refused, mut quality) = (0, random.within(0, 3) as u8);
    for _ in 0..many {
        if random.within(0, often) == 0 {
            quality = random.within(0, 3) as u8;
        }
        let asked = if hostile && random.within(0, 60) == 0 { random.within(0, 255) as u8 } else { quality };
        let call = Call {
            input: sample(random, hostile),
            delay: delays::delay(random, session.rust.buffer.len(), hostile),
            quality: asked,
            rate: rate(random, session.bank, hostile),
        };
        refused += (session.call(&call) != 0) as u64;
    }
    session.whole("the end of a run of calls");
    refused
}

/// Every change of quality at every place of a fade of a few calls.
fn changes(random: &mut Random, bank: &'static Bank) -> u64 {
    let mut compared = 0;
    for length in [1, 2, 3, 5] {
        for place in 0..=length + 1 {
            for (first, second) in (0..4).flat_map(|a| (0..4).map(move |b| (a, b))) {
                let mut session = Session::open(bank, random, length);
                let turns = std::iter::repeat(first).take(place as usize).chain(std::iter::repeat(second).take(length as usize + 2));
                for quality in turns {
                    let call = Call { input: sample(random, false), delay: random.unit() * 6.0, quality, rate: Some(1.0 + 0.02 * random.unit()) };
                    session.call(&call);
                    compared += 1;
                }
            }
        }
    }
    compared
}

pub fn run(context: &mut Context) {
    const CALLS: u64 = 2048;
    let max = if context.round > 8 && context.round % 4 == 0 { banks::LARGE } else { banks::SMALL[context.round as usize % 3] };
    let bank = banks::bank(max);
    for (kind, hostile, often, length) in [
        ("quality kept, no fade", false, 900, 0),
        ("fades of 1 and 2", false, 2, 1 + (context.round % 2) as u32),
        ("fades of 960", false, 1200, 960),
        ("fades of 7, hostile samples, refusals", true, 6, 7),
    ] {
        let random = &mut context.random;
        let mut session = Session::open(bank, random, length);
        let mut refused = calls(&mut session, random, hostile, often, CALLS);
        session.damaged();
        if hostile {
            // a count that no run of calls here would reach
            let count = END as u64 - 64;
            (session.port.state().accepted, session.rust.write_index) = (count, count as i64);
            refused += calls(&mut session, random, hostile, often, 256);
        }
        session.reset();
        refused += calls(&mut session, random, hostile, often, CALLS);
        let (elements, more) = (session.elements, if hostile { 256 } else { 0 });
        context.count("quality reader", kind, 2 * CALLS + more - refused, None);
        context.count("quality reader", "calls refused in between", refused, None);
        context.count("quality reader", "elements of rings", elements, None);
    }
    if context.round % 8 == 0 {
        let compared = changes(&mut context.random, bank);
        context.count("quality reader", "every change at every place", compared, None);
    }
}
