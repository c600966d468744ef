//! How often each export answered each number.

use crate::OverKernel;

/// None, and the refusals' numbers up to the highest.
const ANSWERS: usize = 23;

pub struct Tally(Vec<[u64; ANSWERS]>);

impl Tally {
    pub fn new(exports: usize) -> Self {
        Tally(vec![[0; ANSWERS]; exports])
    }

    pub fn count(&mut self, place: usize, answer: u8) {
        self.0[place][answer as usize] += 1;
    }

    pub fn report(&self, exports: &[OverKernel]) {
        print!("{:<44} {:>10} {:>10}", "", "calls", "accepted");
        (1..ANSWERS).for_each(|n| print!(" {:>9}", format!("by {n}")));
        println!();
        let mut all = [0; ANSWERS];
        for ((name, _), counts) in exports.iter().zip(&self.0) {
            line(name, counts);
            (0..ANSWERS).for_each(|n| all[n] += counts[n]);
        }
        line("", &all);
    }

    /// An export that was called often and never accepted shows little: that is a fault of this driver.
    pub fn silent(&self, exports: &[OverKernel]) -> i32 {
        let often = |counts: &[u64; ANSWERS]| counts.iter().sum::<u64>() >= 1000 && counts[0] == 0;
        let mut status = 0;
        for ((name, _), _) in exports.iter().zip(&self.0).filter(|(_, counts)| often(counts)) {
            println!("{name} never accepted a call");
            status = 1;
        }
        status
    }
}

fn line(name: &str, counts: &[u64; ANSWERS]) {
    print!("{name:<44} {:>10} {:>10}", counts.iter().sum::<u64>(), counts[0]);
    counts[1..].iter().for_each(|n| if *n == 0 { print!(" {:>9}", "") } else { print!(" {n:>9}") });
    println!();
}
