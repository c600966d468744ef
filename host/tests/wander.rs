//! The original's ModulationEngine, replayed bit for bit by the lenient engine, and by a strict one beside it that also meets the refused calls.

mod stored;

use fugnadri::{modulation::ModulationEngine, modulation::ModulationParams, strict};
use stored::{calls, pattern};

fn set(p: &mut ModulationParams, letter: u8, words: [u64; 3]) {
    let [a, b, c] = words.map(f64::from_bits);
    match letter {
        b'w' => (p.wow_rate_hz, p.wow_depth_cents, p.wow_shape) = (a, b, c),
        b'f' => (p.flutter_rate_hz, p.flutter_depth_cents, p.flutter_shape) = (a, b, c),
        _ => (p.drift_amount, p.stereo_amount) = (a, b),
    }
}

fn number<T>(answer: Result<T, fugnadri::Refusal>) -> u64 {
    answer.err().map_or(0, |refusal| refusal.number().into())
}

#[test]
fn engines() {
    let mut engine = ModulationEngine::new(8000.0, 0);
    let mut beside = strict::modulation::ModulationEngine::new(8000.0, 0).expect("a rate in range");
    let mut params = ModulationParams::default();
    let (mut compared, mut refused) = (0, 0);
    for (n, line) in calls("replay_wander").into_iter().enumerate() {
        let [a, b, c] = line.words;
        match line.letter {
            b'o' => match strict::modulation::ModulationEngine::new(f64::from_bits(a), b) {
                Ok(opened) => (engine, beside) = (ModulationEngine::new(f64::from_bits(a), b), opened),
                Err(refusal) => {
                    assert!(line.star || u64::from(refusal.number()) == c, "line {}", n + 1);
                    refused += 1;
                }
            },
            b'w' | b'f' | b'a' => set(&mut params, line.letter, line.words),
            b'd' => {
                engine.set_seed(a);
                beside.set_seed(a);
            }
            b'r' => {
                engine.reset();
                beside.reset();
            }
            b't' => {
                let found = number(beside.set_sample_rate(f64::from_bits(a)));
                assert!(line.star || found == c, "line {}", n + 1);
                refused += u64::from(found != 0);
                if found == 0 {
                    engine.set_sample_rate(f64::from_bits(a));
                }
            }
            b'x' => {
                assert_eq!(number(beside.next(params)), a, "line {}", n + 1);
                refused += 1;
            }
            b'n' => {
                let last = (0..a).map(|_| engine.next(params)).last().expect("a step");
                let other = (0..a).map(|_| beside.next(params)).last().expect("a step").expect("settings in range");
                let found = [last.left, last.right].map(pattern);
                assert_eq!(found, [other.left, other.right].map(pattern));
                assert_eq!(found == [b, c], !line.star, "line {}", n + 1);
                compared += 1;
            }
            // the state, which the types keep to themselves
            _ => {}
        }
    }
    assert_eq!((compared, refused), (1800, 54));
}
