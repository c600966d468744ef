//! The windowed sinc in both widths: the reading over plain slices, and the delay readers call by
//! call beside the original's, over real tables and over tables of anything, by the types of host/ in
//! one of their ways and now and then by the exports that hand out patterns. Refusals stand in
//! between; after each, nothing has changed.

use crate::context::Context;
use crate::delays::{self, END};
use crate::random::Random;
use crate::hosts::Hosted;
use crate::sinc::{OriginalSinc, Sinc, Way};

/// A table, lent to both sides.
#[derive(Clone)]
struct Table<T> {
    taps: usize,
    phases: usize,
    elements: Vec<T>,
}

fn table<T: Sinc>(random: &mut Random, hostile: bool) -> Table<T> {
    let taps = if random.within(0, 1) == 0 { random.pick(&[4, 32, 80, 96, 128]) } else { 2 * random.within(2, 64) as usize };
    let phases = random.pick(&[2, 3, 16, 64, 100]);
    let elements = if hostile {
        // most elements are plain, or every answer would be a NaN
        (0..(phases + 1) * taps).map(|_| now_and_then(random, 97)).collect()
    } else {
        T::table(taps, phases, 0.25 + 0.75 * random.unit(), 20.0 * random.unit())
    };
    Table { taps, phases, elements }
}

/// One sample in `among` is anything, the rest as recorded.
fn now_and_then<T: Sinc>(random: &mut Random, among: i64) -> T {
    let odd = random.within(1, among) == 1;
    sample(random, odd)
}

/// As recorded, or anything; an f32's largest numbers overflow in few steps.
fn sample<T: Sinc>(random: &mut Random, hostile: bool) -> T {
    if !hostile {
        return T::of(delays::plain(random));
    }
    match random.within(0, 9) {
        0 => T::of(random.pick(&[3e38, -3e38, 1e38, 1e-38, 1e-45, -1e-40])),
        1 => T::of(random.unit() * 1e-37),
        _ => T::of(delays::hostile(random)),
    }
}

struct Session<T: Sinc> {
    table: Table<T>,
    rust: T::Reader,
    port: Box<dyn Hosted<T>>,
    way: Way,
    maximum: usize,
    margin: usize,
    elements: u64,
}

fn due<T: Sinc>(count: u64, input: T, delay: f64) -> u8 {
    match () {
        _ if !input.finite() => 4,
        _ if !delay.is_finite() || delay < 0.0 => 5,
        _ if delay > END => 6,
        _ if count == END as u64 => 8,
        _ => 0,
    }
}

impl<T: Sinc> Session<T> {
    fn open(table: Table<T>, random: &mut Random) -> Self {
        let (maximum, margin) = delays::settings(random);
        let mut rust = T::reader(maximum, margin, &table.elements, table.taps, table.phases);
        let (way, mut count, mut ring) = (Way::any(random), random.word(), vec![T::of(f64::NAN); rust.ring().len()]);
        let port = T::host_reader(way, maximum, margin, &table.elements, table.taps, table.phases);
        let mut session = Session { table, rust, port, way, maximum, margin, elements: 0 };
        // opening must set both
        let opened = T::open(maximum, margin, &mut count, &mut ring);
        let alike = (opened, count) == (0, 0) && same(&ring, session.rust.ring());
        session.hold(alike, "open", T::of(0.0), 0.0);
        session.whole("open");
        session
    }

    /// Both sides in a state that no run of calls here would reach.
    fn put(&mut self, count: u64, mut sample: impl FnMut() -> T) {
        let (accepted, ring) = self.port.parts();
        ring.iter_mut().for_each(|x| *x = sample());
        *accepted = count;
        *self.rust.count() = count as i64;
        self.rust.ring().clone_from(ring);
    }

    /// One call on both sides; the number that was due.
    fn call(&mut self, input: T, delay: f64, random: &mut Random) -> u8 {
        let count = *self.port.parts().0;
        let number = due(count, input, delay);
        let place = count as usize & (self.rust.ring().len() - 1);
        let right = if number < 6 { self.rust.process(input, delay) } else { T::of(0.0) };
        let Table { taps, phases, elements } = &self.table;
        // a call now and then by the export that hands out patterns
        let (given, told, answer) = if random.within(0, 7) == 0 {
            let (mut bits, (accepted, ring)) = (T::Bits::default(), self.port.parts());
            let given = T::sinc_process_bits(self.maximum, self.margin, accepted, ring, input, delay, elements, *taps, *phases, &mut bits);
            (given, number, bits.into())
        } else {
            let (given, sample) = self.port.process(input, delay);
            (given, self.port.tells(number), sample.pattern())
        };
        let (accepted, ring) = self.port.parts();
        let silent = number == 0 || answer == 0 && *accepted == count;
        let counts = *accepted == *self.rust.count() as u64;
        let stored = ring[place].pattern() == self.rust.ring()[place].pattern();
        if given != told || answer != right.pattern() || !silent || !counts || !stored {
            println!("  Rust {:X}, Fugnadri {answer:X}; number due {told}, given {given}", right.pattern());
            self.hold(false, "process", input, delay);
        }
        number
    }

    fn reset(&mut self) {
        self.rust.reset();
        self.port.reset();
        self.whole("reset");
    }

    /// Settings, lengths and counts that an open reader never has: refused by 1, 2 and 3, and nothing changes. A reset is lent no table.
    fn damaged(&mut self) {
        let Table { taps, phases, elements } = self.table.clone();
        let (count, ring) = self.port.parts();
        let (maximum, ring, count) = (self.maximum, ring.clone(), *count);
        let short = elements[1..].to_vec();
        let cases: [([u8; 2], usize, usize, &[T], usize, u64, usize); 9] = [
            ([1, 1], taps, phases, &elements, (1 << 24) - 7, count, ring.len()),
            ([1, 0], taps + 1, phases, &elements, maximum, count, ring.len()),
            ([1, 0], 130, phases, &elements, maximum, count, ring.len()),
            ([1, 0], taps, 1, &elements, maximum, count, ring.len()),
            ([1, 2], taps, 4097, &elements, maximum, END as u64 + 1, 0),
            ([2, 0], taps, phases, &short, maximum, count, ring.len()),
            ([2, 0], taps, phases + 1, &elements, maximum, count, ring.len()),
            ([2, 2], taps, phases, &elements, maximum, END as u64 + 1, ring.len() - 1),
            ([3, 3], taps, phases, &elements, maximum, END as u64 + 1, ring.len()),
        ];
        for (numbers, taps, phases, table, maximum, accepted, length) in cases {
            let (before, mut after, mut count, mut answer) = (&ring[..length], ring[..length].to_vec(), accepted, T::of(f64::NAN));
            let given = T::sinc_process(
                maximum, self.margin, &mut count, &mut after, T::of(0.5), 1.0, table, taps, phases, &mut answer,
            );
            let kept = count == accepted && same(before, &after);
            self.hold(given == numbers[0] && answer.pattern() == 0 && kept, "a damaged state", T::of(0.5), 1.0);
            let given = T::reset(maximum, self.margin, &mut count, &mut after);
            let kept = given == 0 || count == accepted && same(before, &after);
            self.hold(given == numbers[1] && kept, "a reset of a damaged state", T::of(0.0), 0.0);
        }
    }

    fn whole(&mut self, what: &str) {
        let (accepted, ring) = self.port.parts();
        let rings = same(ring, self.rust.ring());
        let counts = *accepted == *self.rust.count() as u64;
        self.elements += ring.len() as u64;
        self.hold(rings && counts, what, T::of(0.0), 0.0);
    }

    fn hold(&mut self, alike: bool, what: &str, input: T, delay: f64) {
        if !alike {
            println!("DIFFERENCE in the reader of {}, by host/ in its {:?} way, at {what}", T::NAME, self.way);
            println!("  maximum {}, margin {}, ring {}", self.maximum, self.margin, self.rust.ring().len());
            println!("  {} taps, {} phases, table of {}", self.table.taps, self.table.phases, self.table.elements.len());
            println!("  count after it: Rust {}, Fugnadri {}", self.rust.count(), self.port.parts().0);
            println!("  input {:X}, delay {:016X}  {delay:e}", input.pattern(), delay.to_bits());
            std::process::exit(1)
        }
    }
}

fn same<T: Sinc>(a: &[T], b: &[T]) -> bool {
    a.len() == b.len() && a.iter().zip(b).all(|(x, y)| x.pattern() == y.pattern())
}

fn readers<T: Sinc>(context: &mut Context) {
    const CALLS: u64 = 24576;
    for (kind, odd_table, hostile, near_end) in [
        ("samples as recorded", false, false, false),
        ("hostile samples, refusals", false, true, false),
        ("tables of anything", true, true, false),
        ("counts up to 2^36", false, true, true),
    ] {
        let random = &mut context.random;
        let lent = table(random, odd_table);
        let mut session = Session::<T>::open(lent, random);
        if near_end {
            let count = END as u64 - random.within(0, CALLS as i64) as u64;
            session.put(count, || sample(random, true));
        }
        let mut refused = 0;
        for half in 0..2 {
            for _ in 0..CALLS / 2 {
                // a ring of hostile samples alone answers little but NaN
                let input = if hostile { now_and_then(random, 64) } else { sample(random, false) };
                let delay = delays::delay(random, session.rust.ring().len(), hostile);
                refused += (session.call(input, delay, random) != 0) as u64;
            }
            session.whole("the end of a run of calls");
            session.damaged();
            if half == 0 {
                session.reset();
            }
        }
        let elements = session.elements;
        context.count(T::NAME, kind, CALLS - refused, None);
        context.count(T::NAME, "calls refused in between", refused, None);
        context.count(T::NAME, "elements of rings", elements, None);
    }
}

/// G3. Over plain slices, whose count is their length.
fn slices<T: Sinc>(context: &mut Context) {
    let random = &mut context.random;
    let mut compared = 0;
    for n in 0..48 {
        let Table { taps, phases, elements } = table::<T>(random, n % 4 == 3);
        let length = random.within(0, 200) as usize;
        let source: Vec<T> = (0..length).map(|_| if n % 2 == 1 { now_and_then(random, 16) } else { sample(random, false) }).collect();
        for _ in 0..32 {
            let position = delays::position(random, length);
            let number = if position.abs() <= END { 0 } else { 1 };
            let right = if number == 0 { T::at(&elements, taps, phases, &source, position) } else { T::of(0.0) };
            let (mut answer, mut bits) = (T::of(f64::NAN), T::Bits::default());
            let way = Way::any(random);
            let (by_host, host_answer) = T::host_at(way, &elements, taps, phases, &source, position);
            let given = [
                T::sinc_sample(&elements, taps, phases, &source, length as u64, position, &mut answer),
                T::sinc_sample_bits(&elements, taps, phases, &source, length as u64, position, &mut bits),
                by_host,
            ];
            let answers = [answer.pattern(), bits.into(), host_answer.pattern()];
            if given != [number; 3] || answers != [right.pattern(); 3] {
                println!("DIFFERENCE in {} over a slice of {length}, {taps} taps, {phases} phases, position {position:e}", T::NAME);
                println!("  Rust {:X}, Fugnadri by floats, by patterns and by host/, {way:?}: {answers:X?}; number due {number}, given {given:?}", right.pattern());
                std::process::exit(1)
            }
            compared += 1;
        }
    }
    context.count(T::NAME, "positions over slices", compared, None);
}

pub fn run(context: &mut Context) {
    slices::<f64>(context);
    slices::<f32>(context);
    readers::<f64>(context);
    readers::<f32>(context);
}
