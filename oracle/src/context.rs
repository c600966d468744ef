//! What a run carries from subject to subject: the generator, the round, and the counts.

use crate::random::Random;

pub struct Context {
    pub random: Random,
    /// 0 in the first round, in which the lists that need no generator are compared too.
    pub round: u64,
    counts: Vec<Count>,
}

struct Count {
    subject: String,
    kind: &'static str,
    compared: u64,
    told: Option<u64>,
}

impl Context {
    /// How many inputs of each kind a round draws.
    pub const BATCH: u64 = 1 << 16;

    pub fn new(seed: u64) -> Self {
        Context { random: Random::new(seed), round: 0, counts: Vec::new() }
    }

    /// A batch of inputs by the generator.
    pub fn draw<T>(&mut self, input: impl Fn(&mut Random) -> T) -> Vec<T> {
        (0..Self::BATCH).map(|_| input(&mut self.random)).collect()
    }

    /// Adds to what was compared: `told` of these inputs tell the right answer from a reading that
    /// only looks right, where there is one.
    pub fn count(&mut self, subject: &str, kind: &'static str, compared: u64, told: Option<u64>) {
        let same = |c: &&mut Count| c.subject == subject && c.kind == kind;
        match self.counts.iter_mut().find(same) {
            Some(c) => {
                c.compared += compared;
                c.told = c.told.zip(told).map(|(a, b)| a + b);
            }
            None => self.counts.push(Count { subject: subject.into(), kind, compared, told }),
        }
    }

    pub fn report(&self) {
        println!("{:<18} {:<38} {:>12} {:>12}", "", "inputs", "compared", "telling");
        let mut last = "";
        for c in &self.counts {
            let name = if c.subject == last { "" } else { &c.subject };
            let told = c.told.map_or(String::new(), |n| n.to_string());
            println!("{name:<18} {:<38} {:>12} {told:>12}", c.kind, c.compared);
            last = &c.subject;
        }
        println!("{:<18} {:<38} {:>12}", "", "", self.compared());
    }

    /// How much was compared so far.
    pub fn compared(&self) -> u64 {
        self.counts.iter().map(|c| c.compared).sum()
    }
}
