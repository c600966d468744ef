//! W3, W3f. Whole stretches of the f32 readers beside the original's single calls: every output, what is done, the state
//! and the ring. Refused items stand in between and end a stretch; the next one goes on behind them. The quality reader
//! is asked for another quality in most stretches, so that fades begin, end and go on through them. The sums of absent
//! taps are those of the calls that tell them one by one.

use crate::banks;
use crate::context::Context;
use crate::delays::{self, END};
use crate::random::Random;
use crate::shape::bits32;
use crate::sinc::{OriginalSinc, Sinc};
use boundary::{
    sinc_f32_process_told, sinc_f32_stretch, sinc_f32_stretch_told, Absent, Asked, ItemsF32, LentF32, QualityReader,
};
use wow_dsp::{QualityMode, QualityVariableDelayF32};

const MODES: [QualityMode; 4] = [QualityMode::Draft, QualityMode::Normal, QualityMode::Hq, QualityMode::Ultra];

/// The number that an item is due, 0 for none.
fn due(count: u64, input: f32, delay: f64) -> u8 {
    match () {
        _ if !input.is_finite() => 4,
        _ if !delay.is_finite() || delay < 0.0 => 5,
        _ if delay > END => 6,
        _ if count == END as u64 => 8,
        _ => 0,
    }
}

fn hold(name: &str, item: usize, right: bool, what: &str) {
    if !right {
        println!("DIFFERENCE in {name}: item {item}: {what}");
        std::process::exit(1)
    }
}

/// Inputs and delays of a stretch of 0 to 300 items; every fourth has an item that may be refused.
fn items(random: &mut Random, length: usize) -> (Vec<f32>, Vec<f64>) {
    let many = random.within(0, 300) as usize;
    let mut inputs: Vec<f32> = (0..many).map(|_| delays::plain(random) as f32).collect();
    let mut ways: Vec<f64> = (0..many).map(|_| delays::delay(random, length, false)).collect();
    if many > 0 && random.within(0, 3) == 0 {
        let at = random.within(0, many as i64 - 1) as usize;
        inputs[at] = delays::hostile(random) as f32;
        ways[at] = delays::delay(random, length, true);
    }
    (inputs, ways)
}

/// One stretch from a count on: its number and what is done, its outputs, and each original single call beside them.
fn one(
    name: &str,
    count: u64,
    inputs: &[f32],
    ways: &[f64],
    given: (u8, usize),
    out: &[f32],
    mut single: impl FnMut(f32, f64) -> f32,
) -> u64 {
    let many = inputs.len();
    let refused = (0..many).find(|&k| due(count + k as u64, inputs[k], ways[k]) != 0);
    let right = refused.map_or((0, many), |k| (due(count + k as u64, inputs[k], ways[k]), k));
    hold(name, given.1, given == right, "it ends elsewhere, or by another number");
    for k in 0..given.1 {
        hold(name, k, bits32(single(inputs[k], ways[k])) == bits32(out[k]), "another sample");
    }
    hold(name, given.1, out[given.1..].iter().all(|&x| x == 7.5), "an output behind the items done is written");
    given.1 as u64
}

fn same(left: &[f32], right: &[f32]) -> bool {
    left.len() == right.len() && left.iter().zip(right).all(|(a, b)| bits32(*a) == bits32(*b))
}

/// The sums over the items done, each from a call that tells its own.
fn sums(done: usize, mut one: impl FnMut(usize, &mut Absent)) -> Absent {
    let mut sums = Absent::default();
    for k in 0..done {
        let mut absent = Absent::default();
        one(k, &mut absent);
        sums.unwritten += absent.unwritten;
        sums.ahead += absent.ahead;
        sums.overwritten += absent.overwritten;
    }
    sums
}

fn sinc(context: &mut Context) {
    let (name, mut compared) = ("whole sinc f32", 0);
    for _ in 0..4 {
        let (maximum, margin) = delays::settings(&mut context.random);
        let taps = context.random.pick(&[4, 32, 96, 128]);
        let table = <f32 as Sinc>::table(taps, 16, 0.9, 8.0);
        let mut original = <f32 as Sinc>::reader(maximum, margin, &table, taps, 16);
        let (mut ring, mut accepted) = (vec![0.0f32; original.ring().len()], 0);
        for _ in 0..8 {
            let (inputs, ways) = items(&mut context.random, ring.len());
            let (before, mut out) = (accepted, vec![7.5f32; inputs.len()]);
            let mut all = ItemsF32 { inputs: &inputs, delays: &ways, done: usize::MAX };
            let lent = LentF32 { table: &table, taps, phases: 16 };
            let (mut singly, mut telling) = (ring.clone(), ring.clone());
            let number = sinc_f32_stretch(maximum, margin, &mut accepted, &mut ring, &mut all, lent, &mut out);
            let done = all.done;
            compared += one(name, before, &inputs, &ways, (number, done), &out, |x, y| original.process(x, y));
            hold(
                name,
                done,
                accepted == *original.count() as u64 && same(&ring, original.ring()),
                "another count or ring",
            );
            let (mut count, mut told, mut second) = (before, before, vec![7.5f32; inputs.len()]);
            let right = sums(done, |k, absent| {
                let (x, y) = (inputs[k], ways[k]);
                sinc_f32_process_told(
                    maximum,
                    margin,
                    &mut count,
                    &mut singly,
                    x,
                    y,
                    &table,
                    taps,
                    16,
                    &mut 0.0,
                    absent,
                );
            });
            let mut absent = Absent { unwritten: 9, ahead: 9, overwritten: 9 };
            let again = sinc_f32_stretch_told(
                maximum,
                margin,
                &mut told,
                &mut telling,
                &mut all,
                lent,
                &mut second,
                &mut absent,
            );
            let alike =
                (again, all.done, told) == (number, done, accepted) && same(&telling, &ring) && same(&second, &out);
            hold(name, done, alike && absent == right, "the stretch that tells its absent taps differs");
        }
    }
    context.count(name, "items of whole stretches", compared, None);
}

fn quality(context: &mut Context) {
    let (name, mut compared) = ("whole quality", 0);
    let random = &mut context.random;
    for _ in 0..4 {
        let bank = banks::bank(1.02);
        let (maximum, margin) = delays::settings(random);
        let opened = random.within(0, 3) as u8;
        let crossfade_samples = random.pick(&[0, 1, 2, 5, 100, 960]);
        let mut original =
            QualityVariableDelayF32::new(maximum, margin, bank.rust.clone(), MODES[opened as usize], crossfade_samples);
        let mut port = QualityReader {
            maximum,
            margin,
            accepted: 0,
            current: 0,
            target: 0,
            crossfade_position: 0,
            crossfade_samples,
            rule: 0,
            direction: 0,
            ring: vec![0.0; original.buffer.len()],
        };
        hold(name, 0, port.open(opened) == 0, "it is not opened");
        for _ in 0..8 {
            let (inputs, ways) = items(random, port.ring.len());
            let (before, mut out) = (port.accepted, vec![7.5f32; inputs.len()]);
            let (quality, playback_rate) = (random.within(0, 3) as u8, random.pick(&[1.0, 1.004, 1.02, 0.5, 3.0]));
            let mut all = ItemsF32 { inputs: &inputs, delays: &ways, done: usize::MAX };
            let asked = Asked { sets: bank.sets(), max_rate: bank.max_rate, quality, playback_rate };
            let (mut singly, mut telling) = (port.clone(), port.clone());
            let number = port.stretch(&mut all, asked, &mut out);
            let done = all.done;
            compared += one(name, before, &inputs, &ways, (number, done), &out, |x, y| {
                original.process_sample_rate_aware(x, y, MODES[quality as usize], playback_rate)
            });
            let modes = [port.current, port.target].map(|code| MODES[code as usize]);
            let fields = port.accepted == original.write_index as u64
                && modes == [original.current_quality, original.target_quality]
                && port.crossfade_position == original.crossfade_position;
            hold(name, done, fields && same(&port.ring, &original.buffer), "another state or ring");
            let right = sums(done, |k, absent| {
                let (sets, max_rate) = (bank.sets(), bank.max_rate);
                singly.process_rate_aware_told(
                    sets,
                    max_rate,
                    inputs[k],
                    ways[k],
                    quality,
                    playback_rate,
                    &mut 0.0,
                    absent,
                );
            });
            let (mut second, mut absent) =
                (vec![7.5f32; inputs.len()], Absent { unwritten: 9, ahead: 9, overwritten: 9 });
            let again = telling.stretch_told(&mut all, asked, &mut second, &mut absent);
            let alike = (again, all.done, telling.accepted) == (number, done, port.accepted)
                && telling.crossfade_position == port.crossfade_position
                && same(&telling.ring, &port.ring)
                && same(&second, &out);
            hold(name, done, alike && absent == right, "the stretch that tells its absent taps differs");
        }
    }
    context.count(name, "items of whole stretches", compared, None);
}

pub fn run(context: &mut Context) {
    sinc(context);
    quality(context);
}
