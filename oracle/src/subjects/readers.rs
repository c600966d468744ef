//! The delay readers, call by call beside the original's `VariableDelay`: every sample, the count,
//! and the ring, by both ways of host/ and by the exports that hand out patterns. Refusals stand in between: 4 and 5 beside the original's 0.0 without an advance; 6
//! and 8, which it does not know, alone; after each, nothing has changed.

use crate::context::Context;
use crate::delays::{self, END};
use crate::hosts::Hosted;
use crate::kernels::{every, Beside, Original};
use crate::random::Random;
use crate::shape::bits64;
use boundary::Reader;

/// The original's reader, and the port's: by host/, strict and lenient, and by patterns.
struct Session<'a> {
    kernel: &'a Beside,
    rust: Box<dyn Original>,
    hosts: [Box<dyn Hosted<f64>>; 2],
    port: Reader,
    /// Elements of rings compared so far.
    elements: u64,
}

/// What a call is due: 01's number, 0 for none, of those that a call in an open reader can meet.
fn due(count: u64, input: f64, delay: f64) -> u8 {
    match () {
        _ if !input.is_finite() => 4,
        _ if !delay.is_finite() || delay < 0.0 => 5,
        _ if delay > END => 6,
        _ if count == END as u64 => 8,
        _ => 0,
    }
}

impl<'a> Session<'a> {
    fn open(kernel: &'a Beside, random: &mut Random) -> Self {
        let (maximum, margin) = delays::settings(random);
        let mut rust = (kernel.open)(maximum, margin);
        // opening must set both
        let port = Reader { maximum, margin, accepted: random.word(), ring: vec![f64::NAN; rust.ring().len()] };
        let mut session = Session { kernel, rust, hosts: (kernel.host)(maximum, margin), port, elements: 0 };
        let opened = session.port.open();
        session.hold(opened == 0, "open", 0.0, 0.0);
        session.whole("open");
        session
    }

    /// Both sides in the state of a count and a ring that no run of calls here would reach.
    fn put(&mut self, count: u64, mut sample: impl FnMut() -> f64) {
        *self.rust.count() = count as i64;
        self.rust.ring().iter_mut().for_each(|x| *x = sample());
        let hosts = self.hosts.iter_mut().map(|host| host.parts());
        for (accepted, ring) in hosts.chain([(&mut self.port.accepted, &mut self.port.ring)]) {
            *accepted = count;
            ring.clone_from(self.rust.ring());
        }
    }

    /// One call on both sides: whether the number, the sample, the count and the sample's place in
    /// the ring are alike.
    fn agrees(&mut self, input: f64, delay: f64) -> bool {
        let (count, number) = (self.port.accepted, due(self.port.accepted, input, delay));
        let place = count as usize & (self.port.ring.len() - 1);
        let right = bits64(if number < 6 { self.rust.process(input, delay) } else { 0.0 });
        let mut bits = 1;
        let given = (self.kernel.port.process_bits)(&mut self.port, input, delay, self.kernel.taps, &mut bits);
        let mut same = (given, bits) == (number, right) && (number == 0 || right == 0 && self.port.accepted == count);
        let after = (*self.rust.count() as u64, bits64(self.rust.ring()[place]));
        for host in &mut self.hosts {
            let (given, sample) = host.process(input, delay);
            let (accepted, ring) = host.parts();
            same &= (*accepted, bits64(ring[place])) == after && bits64(sample) == right && given == host.tells(number);
        }
        same && (self.port.accepted, bits64(self.port.ring[place])) == after
    }

    /// One call, compared; the number that was due.
    fn call(&mut self, input: f64, delay: f64) -> u8 {
        let count = self.port.accepted;
        let place = count as usize & (self.port.ring.len() - 1);
        let old = self.port.ring[place];
        if !self.agrees(input, delay) {
            let mut ring = self.rust.ring().clone();
            ring[place] = old;
            self.stop(count, ring, input, delay);
        }
        due(count, input, delay)
    }

    /// The call from the same count, with as much of the ring zeroed as leaves the two sides different.
    fn stop(&mut self, count: u64, mut ring: Vec<f64>, input: f64, delay: f64) -> ! {
        let mut differs = |ring: &[f64]| {
            let mut elements = ring.iter().copied();
            self.put(count, || elements.next().unwrap_or(0.0));
            !self.agrees(input, delay)
        };
        let mut part = ring.len();
        while part > 0 {
            for from in (0..ring.len()).step_by(part) {
                let old = ring[from..from + part].to_vec();
                ring[from..from + part].fill(0.0);
                if !differs(&ring) {
                    ring[from..from + part].copy_from_slice(&old);
                }
            }
            part /= 2;
        }
        let held: Vec<(usize, f64)> = ring.iter().copied().enumerate().filter(|(_, x)| x.to_bits() != 0).collect();
        let mut elements = ring.iter().copied();
        self.put(count, || elements.next().unwrap_or(0.0));
        let (mut bits, number) = (1, due(count, input, delay));
        let right = if number < 6 { self.rust.process(input, delay) } else { 0.0 };
        let given = (self.kernel.port.process_bits)(&mut self.port, input, delay, self.kernel.taps, &mut bits);
        println!("  count before it {count}; elements of the ring that are not 0.0: {held:?}");
        println!("  Rust {:016X}, Fugnadri {bits:016X}; number due {number}, given {given}", bits64(right));
        for (way, host) in ["strict", "lenient"].iter().zip(&mut self.hosts) {
            let (given, sample) = host.process(input, delay);
            println!("  by host/, {way}: {:016X}, number due {}, given {given}; its count {}", bits64(sample), host.tells(number), host.parts().0);
        }
        self.hold(false, "process", input, delay);
        unreachable!()
    }

    fn reset(&mut self) {
        self.rust.reset();
        self.hosts.iter_mut().for_each(|host| host.reset());
        let done = self.port.reset();
        self.hold(done == 0, "reset", 0.0, 0.0);
        self.whole("reset");
    }

    /// Settings, lengths and counts that an open reader never has: refused by 1, 2 and 3, and nothing changes.
    fn damaged(&mut self, input: f64, delay: f64) {
        let mut damaged = [self.port.clone(), self.port.clone(), self.port.clone()];
        damaged[0].maximum = (1 << 24) - 7;
        damaged[1].ring.pop();
        damaged[2].accepted = END as u64 + 1;
        for (reader, number) in damaged.into_iter().zip(1..) {
            let (mut after, mut sample) = (reader.clone(), f64::NAN);
            let Beside { port, taps, .. } = self.kernel;
            let given = [(port.process)(&mut after, input, delay, *taps, &mut sample), after.reset()];
            let kept = after.accepted == reader.accepted && same_ring(&after.ring, &reader.ring);
            self.hold(given == [number; 2] && bits64(sample) == 0 && kept, "a damaged state", input, delay);
        }
    }

    /// Every element of the ring, and the count.
    fn whole(&mut self, what: &str) {
        let count = *self.rust.count() as u64;
        let mut same = self.port.accepted == count && same_ring(&self.port.ring, self.rust.ring());
        for host in &mut self.hosts {
            let (accepted, ring) = host.parts();
            same &= *accepted == count && same_ring(ring, self.rust.ring());
        }
        self.elements += self.port.ring.len() as u64;
        self.hold(same, what, 0.0, 0.0);
    }

    fn hold(&mut self, same: bool, what: &str, input: f64, delay: f64) {
        if !same {
            println!("DIFFERENCE in the {} reader, at {what}", self.kernel.name());
            println!("  maximum {}, margin {}, ring {}", self.port.maximum, self.port.margin, self.port.ring.len());
            println!("  count after it: Rust {}, Fugnadri {}", self.rust.count(), self.port.accepted);
            println!("  input {:016X}  {input:e}, delay {:016X}  {delay:e}", input.to_bits(), delay.to_bits());
            std::process::exit(1)
        }
    }
}

fn same_ring(a: &[f64], b: &[f64]) -> bool {
    a.len() == b.len() && a.iter().zip(b).all(|(x, y)| bits64(*x) == bits64(*y))
}

/// Calls of one kind in one session; the ring is compared whole at the end, and a small one after every refusal.
fn calls(session: &mut Session, random: &mut Random, hostile: bool, many: u64) -> u64 {
    let (length, mut refused) = (session.port.ring.len(), 0);
    for _ in 0..many {
        let input = if hostile { delays::hostile(random) } else { delays::plain(random) };
        let delay = delays::delay(random, length, hostile);
        if session.call(input, delay) != 0 {
            refused += 1;
            if length <= 64 {
                session.whole("a refusal");
            }
        }
    }
    session.whole("the end of a run of calls");
    refused
}

pub fn run(context: &mut Context) {
    const CALLS: u64 = 4096;
    for kernel in every() {
        for (kind, hostile, near_end) in [
            ("samples as recorded", false, false),
            ("hostile samples, refusals", true, false),
            ("counts up to 2^36", true, true),
        ] {
            let random = &mut context.random;
            let mut session = Session::open(kernel, random);
            if near_end {
                let count = END as u64 - random.within(0, CALLS as i64) as u64;
                session.put(count, || delays::hostile(random));
            }
            let first = calls(&mut session, random, hostile, CALLS);
            session.damaged(0.5, 1.0);
            session.reset();
            let refused = first + calls(&mut session, random, hostile, CALLS);
            let elements = session.elements;
            context.count(&kernel.name(), kind, 2 * CALLS - refused, None);
            context.count(&kernel.name(), "calls refused in between", refused, None);
            context.count(&kernel.name(), "elements of rings", elements, None);
        }
    }
}
