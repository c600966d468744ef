//! A function of Rust's and the port's that must answer as it does, from patterns to a pattern:
//! compared, and on a difference made small.

use crate::context::Context;
use crate::random::Random;
use crate::shape::Shape;

pub struct Pair<const N: usize> {
    pub name: &'static str,
    pub takes: [Shape; N],
    pub gives: Shape,
    pub rust: fn([u64; N]) -> u64,
    /// The port's exports: by floats and, where it has that form too, by patterns.
    pub ports: &'static [fn([u64; N]) -> u64],
    /// A reading that looks right, if there is one: how many inputs tell it from the right answer is
    /// counted, so that a list of harmless inputs is seen for what it is.
    pub tempting: Option<fn([u64; N]) -> u64>,
}

/// A kind of input and how it is drawn.
pub type Kind<const N: usize> = (&'static str, fn(&mut Random) -> [u64; N]);

impl<const N: usize> Pair<N> {
    /// Compares a batch of every kind.
    pub fn draw(&self, context: &mut Context, kinds: &[Kind<N>]) {
        for (kind, input) in kinds {
            let inputs = context.draw(input);
            self.compare(context, kind, inputs);
        }
    }

    /// Compares every input that `inputs` gives.
    pub fn compare(&self, context: &mut Context, kind: &'static str, inputs: impl IntoIterator<Item = [u64; N]>) {
        let (mut compared, mut told) = (0, 0);
        for input in inputs {
            if self.differs(input) {
                self.stop(kind, input);
            }
            compared += 1;
            told += self.tempting.is_some_and(|f| f(input) != (self.rust)(input)) as u64;
        }
        context.count(self.name, kind, compared, self.tempting.map(|_| told));
    }

    fn differs(&self, input: [u64; N]) -> bool {
        let right = (self.rust)(input);
        self.ports.iter().any(|port| port(input) != right)
    }

    /// Ever simpler inputs, as long as the two sides still differ there.
    fn smallest(&self, mut input: [u64; N]) -> [u64; N] {
        let cost = |x: &[u64; N]| -> u32 { (0..N).map(|i| self.takes[i].cost(x[i])).sum() };
        let simpler = |input: &[u64; N]| {
            let list = self.one_simpler(input).into_iter().chain(self.two_moved(input));
            list.into_iter().find(|next| cost(next) < cost(input) && self.differs(*next))
        };
        while let Some(next) = simpler(&input) {
            input = next;
        }
        input
    }

    /// One argument replaced by a simpler one.
    fn one_simpler(&self, input: &[u64; N]) -> Vec<[u64; N]> {
        let with = |i: usize, word: u64| std::array::from_fn(|k| if k == i { word } else { input[k] });
        (0..N).flat_map(|i| self.takes[i].simpler(input[i]).into_iter().map(move |word| with(i, word))).collect()
    }

    /// Two arguments' exponents moved together, or apart by as much: what they make keeps its digits.
    fn two_moved(&self, input: &[u64; N]) -> Vec<[u64; N]> {
        let mut list = Vec::new();
        for (i, j) in (0..N).flat_map(|i| (0..N).map(move |j| (i, j))).filter(|(i, j)| i != j) {
            let whole = self.takes[i].from_one(input[i]);
            for by in [-whole, -whole / 2, -whole.signum()] {
                for other in [by, -by] {
                    let moved = (self.takes[i].moved(input[i], by), self.takes[j].moved(input[j], other));
                    if let (Some(a), Some(b)) = moved {
                        list.push(std::array::from_fn(|k| {
                            if k == i {
                                a
                            } else if k == j {
                                b
                            } else {
                                input[k]
                            }
                        }));
                    }
                }
            }
        }
        list
    }

    fn stop(&self, kind: &str, found: [u64; N]) -> ! {
        println!("DIFFERENCE in {}, among {kind}", self.name);
        for (what, input) in [("smallest input found", self.smallest(found)), ("first input found", found)] {
            println!("  {what}:");
            for i in 0..N {
                println!("    {}", self.takes[i].show(input[i]));
            }
            println!("    Rust     {}", self.gives.show((self.rust)(input)));
            for port in self.ports {
                println!("    Fugnadri {}", self.gives.show(port(input)));
            }
        }
        std::process::exit(1)
    }
}
