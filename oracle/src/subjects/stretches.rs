//! W3. Whole stretches of the f64 delay readers, beside the original's `VariableDelay` call by call: every output, what is
//! done, the count and the ring. Refused items stand in between and end a stretch; the next one goes on behind them. The
//! sums of absent taps are those of the calls that tell them one by one.

use crate::context::Context;
use crate::delays::{self, END};
use crate::kernels::{some, Beside};
use crate::random::Random;
use crate::shape::bits64;
use crate::sinc::{OriginalSinc, Sinc};
use boundary::{Absent, Items, Lent, Reader};

/// The original's reader, by what one call of it answers, and its count and ring.
struct Original {
    process: Box<dyn FnMut(f64, f64) -> u64>,
    left: Box<dyn FnMut() -> (u64, Vec<f64>)>,
}

type Stretch<'a> = &'a dyn Fn(&mut Reader, &mut Items, &mut [f64]) -> u8;
type Told<'a> = &'a dyn Fn(&mut Reader, &mut Items, &mut [f64], &mut Absent) -> u8;
type One<'a> = &'a dyn Fn(&mut Reader, f64, f64, &mut Absent) -> u8;

/// The number that an item is due, 0 for none.
fn due(count: u64, input: f64, delay: f64) -> u8 {
    match () {
        _ if !input.is_finite() => 4,
        _ if !delay.is_finite() || delay < 0.0 => 5,
        _ if delay > END => 6,
        _ if count == END as u64 => 8,
        _ => 0,
    }
}

fn stop(name: &str, item: usize, reader: &Reader, what: &str) -> ! {
    let Reader { maximum, margin, accepted, .. } = reader;
    println!("DIFFERENCE in {name}: item {item}: {what} (maximum {maximum}, margin {margin}, count {accepted} before the stretch)");
    std::process::exit(1)
}

/// Some stretches of one reader, each of 0 to 300 items; every fourth has an item that is refused.
fn stretches(random: &mut Random, name: &str, original: &mut Original, port: &mut Reader, call: Stretch, told: Told, one: One) -> u64 {
    let (length, mut compared) = (port.ring.len(), 0);
    for _ in 0..8 {
        let many = random.within(0, 300) as usize;
        let mut inputs: Vec<f64> = (0..many).map(|_| delays::plain(random)).collect();
        let mut ways: Vec<f64> = (0..many).map(|_| delays::delay(random, length, false)).collect();
        if many > 0 && random.within(0, 3) == 0 {
            let at = random.within(0, many as i64 - 1) as usize;
            inputs[at] = delays::hostile(random);
            ways[at] = delays::delay(random, length, true);
        }
        let before = port.clone();
        let (mut singly, mut telling) = (port.clone(), port.clone());
        let (mut out, mut second) = (vec![7.5; many], vec![7.5; many]);
        let mut items = Items { inputs: &inputs, delays: &ways, done: usize::MAX };
        let number = call(port, &mut items, &mut out);
        let done = items.done;
        let refused = (0..many).find(|&k| due(before.accepted + k as u64, inputs[k], ways[k]) != 0);
        let right = refused.map_or((0, many), |k| (due(before.accepted + k as u64, inputs[k], ways[k]), k));
        if (number, done) != right {
            stop(name, done, &before, "it ends elsewhere, or by another number");
        }
        let mut sums = Absent::default();
        for k in 0..done {
            if (original.process)(inputs[k], ways[k]) != bits64(out[k]) {
                stop(name, k, &before, "another sample");
            }
            let mut absent = Absent::default();
            one(&mut singly, inputs[k], ways[k], &mut absent);
            sums.unwritten += absent.unwritten;
            sums.ahead += absent.ahead;
            sums.overwritten += absent.overwritten;
            compared += 1;
        }
        if out[done..].iter().any(|&x| x != 7.5) {
            stop(name, done, &before, "an output behind the items done is written");
        }
        let (count, ring) = (original.left)();
        if port.accepted != count || port.ring.iter().zip(&ring).any(|(a, b)| bits64(*a) != bits64(*b)) {
            stop(name, done, &before, "another count or ring");
        }
        let mut absent = Absent { unwritten: 9, ahead: 9, overwritten: 9 };
        items.done = usize::MAX;
        let again = told(&mut telling, &mut items, &mut second, &mut absent);
        let alike = (again, items.done) == (number, done) && telling.accepted == port.accepted && telling.ring == port.ring;
        if !alike || absent != sums || out.iter().zip(&second).any(|(a, b)| bits64(*a) != bits64(*b)) {
            stop(name, done, &before, "the stretch that tells its absent taps differs");
        }
    }
    compared
}

fn opened(maximum: usize, margin: usize, length: usize) -> Reader {
    let mut reader = Reader { maximum, margin, accepted: 0, ring: vec![0.0; length] };
    reader.open();
    reader
}

fn readers(context: &mut Context, kernel: &Beside) {
    let (name, mut compared) = (format!("whole {}", kernel.name()), 0);
    let Beside { port: by, taps, .. } = kernel;
    for _ in 0..4 {
        let (maximum, margin) = delays::settings(&mut context.random);
        let reader = std::rc::Rc::new(std::cell::RefCell::new((kernel.open)(maximum, margin)));
        let other = reader.clone();
        let mut original = Original {
            process: Box::new(move |input, delay| bits64(reader.borrow_mut().process(input, delay))),
            left: Box::new(move || {
                let mut reader = other.borrow_mut();
                (*reader.count() as u64, reader.ring().clone())
            }),
        };
        let mut port = opened(maximum, margin, (original.left)().1.len());
        compared += stretches(
            &mut context.random,
            &name,
            &mut original,
            &mut port,
            &|r, items, out| (by.stretch)(r, items, *taps, out),
            &|r, items, out, a| (by.stretch_told)(r, items, *taps, out, a),
            &|r, x, d, a| (by.process_told)(r, x, d, *taps, &mut 0.0, a),
        );
    }
    context.count(&name, "items of whole stretches", compared, None);
}

fn sinc(context: &mut Context) {
    let mut compared = 0;
    for _ in 0..2 {
        let (maximum, margin) = delays::settings(&mut context.random);
        let taps = context.random.pick(&[4, 32, 96, 128]);
        let table = <f64 as Sinc>::table(taps, 16, 0.9, 8.0);
        let reader = std::rc::Rc::new(std::cell::RefCell::new(<f64 as Sinc>::reader(maximum, margin, &table, taps, 16)));
        let other = reader.clone();
        let mut original = Original {
            process: Box::new(move |input, delay| bits64(reader.borrow_mut().process(input, delay))),
            left: Box::new(move || {
                let mut reader = other.borrow_mut();
                (*reader.count() as u64, reader.ring().clone())
            }),
        };
        let mut port = opened(maximum, margin, (original.left)().1.len());
        let lent = || Lent { table: &table, taps, phases: 16 };
        compared += stretches(
            &mut context.random,
            "whole sinc",
            &mut original,
            &mut port,
            &|r, items, out| r.sinc_stretch(items, lent(), out),
            &|r, items, out, a| r.sinc_stretch_told(items, lent(), out, a),
            &|r, x, d, a| {
                boundary::sinc_process_told(r.maximum, r.margin, &mut r.accepted, &mut r.ring, x, d, &table, taps, 16, &mut 0.0, a)
            },
        );
    }
    context.count("whole sinc", "items of whole stretches", compared, None);
}

pub fn run(context: &mut Context) {
    for kernel in some() {
        readers(context, kernel);
    }
    sinc(context);
}
