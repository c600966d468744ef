//! O2. The port's sine, cosine and 2^x beside the standard library's, on the same arguments.
//!
//! `elementary SEED MILLIONS`: so many millions of arguments for each of the three, and lists that
//! need no generator. Prints the largest difference of each with its argument, and ends with exit
//! status 1 where one is above 2^-40, or where an argument in the range is refused or one outside is
//! not. The standard library's own errors count with the port's, so this shows that the two are near
//! each other; how near the port's are to the true values is proved.

mod random;

use random::Random;

const MOST: f64 = 1.0 / (1u64 << 40) as f64;

struct Function {
    name: &'static str,
    /// Arguments from -range to range.
    range: f64,
    rust: fn(f64) -> f64,
    value: fn(f64) -> f64,
    port: fn(f64, &mut f64) -> u8,
}

const FUNCTIONS: [Function; 3] = [
    Function { name: "sine", range: 256.0, rust: f64::sin, value: boundary::sine, port: boundary::sine_or_refusal },
    Function {
        name: "cosine",
        range: 256.0,
        rust: f64::cos,
        value: boundary::cosine,
        port: boundary::cosine_or_refusal,
    },
    Function {
        name: "exp2",
        range: 1.0,
        rust: |x| 2.0_f64.powf(x),
        value: boundary::exp2,
        port: boundary::exp2_or_refusal,
    },
];

/// What was compared so far, and the largest difference with its argument.
struct Worst {
    compared: u64,
    difference: f64,
    at: f64,
}

impl Function {
    fn compare(&self, worst: &mut Worst, x: f64) {
        let mut value = f64::NAN;
        let refusal = (self.port)(x, &mut value);
        let difference = (value - (self.rust)(x)).abs();
        // a NaN is above every bound
        if refusal != 0 || value.to_bits() != (self.value)(x).to_bits() || !(difference <= MOST) {
            let rust = (self.rust)(x);
            println!(
                "{} of {x:e} ({:016X}): refusal {refusal}, the port's {value:e}, Rust's {rust:e}",
                self.name,
                x.to_bits()
            );
            std::process::exit(1);
        }
        worst.compared += 1;
        if difference > worst.difference || worst.compared == 1 {
            (worst.difference, worst.at) = (difference, x);
        }
    }

    /// Outside the range, and where there is no number, the answer is refusal 1 and the value 0.0.
    fn refuses(&self, x: f64) {
        let mut value = f64::NAN;
        let refusal = (self.port)(x, &mut value);
        if refusal != 1 || value.to_bits() != 0 || (self.value)(x).to_bits() != 0 {
            println!("{} of {x:e} ({:016X}): refusal {refusal} and not 1, value {value:e}", self.name, x.to_bits());
            std::process::exit(1);
        }
    }

    /// The ends, zeros, the smallest numbers, powers of two, the quarter turns and halves, and what
    /// lies beside each.
    fn list(&self) -> Vec<f64> {
        let powers = (-1074..=8).map(|n| 2.0_f64.powi(n));
        let turns = (0..=1024).map(|k| k as f64 * std::f64::consts::FRAC_PI_4);
        let parts = (0..=4096).map(|k| k as f64 / 16.0).chain((0..=4096).map(|k| k as f64 / 4096.0));
        let all = [0.0, f64::MIN_POSITIVE, self.range].into_iter().chain(powers).chain(turns).chain(parts);
        let beside = all.flat_map(|x| [x.next_down(), x, x.next_up()]);
        beside.flat_map(|x| [x, -x]).filter(|x| x.abs() <= self.range).collect()
    }

    fn run(&self, random: &mut Random, millions: u64) -> Worst {
        let mut worst = Worst { compared: 0, difference: 0.0, at: 0.0 };
        for x in self.list() {
            self.compare(&mut worst, x);
        }
        for _ in 0..millions * 500_000 {
            // evenly over the range, and evenly over the exponents
            let even = (random.unit() * 2.0 - 1.0) * self.range;
            let size = self.range * 2.0_f64.powi(-(random.within(0, 60) as i32));
            self.compare(&mut worst, even);
            self.compare(&mut worst, (random.unit() * 2.0 - 1.0) * size);
        }
        let beyond = self.range.next_up();
        for x in [beyond, self.range * 2.0, 1e6, f64::MAX, f64::INFINITY] {
            self.refuses(x);
            self.refuses(-x);
        }
        self.refuses(f64::NAN);
        worst
    }
}

fn main() {
    std::process::exit(status())
}

/// What the program does, and the exit status that it ends with.
fn status() -> i32 {
    let word = |n: usize| -> u64 { std::env::args().nth(n).expect("SEED MILLIONS").parse().expect("a number") };
    let (mut random, millions) = (Random::new(word(1)), word(2));
    println!("{:<10} {:>12}  {:<22} {:<12} at", "", "compared", "largest difference", "of 2^-40");
    for function in FUNCTIONS {
        let worst = function.run(&mut random, millions);
        let (share, difference) = (worst.difference / MOST, worst.difference);
        println!(
            "{:<10} {:>12}  {difference:<22e} {share:<12.2e} {:e} ({:016X})",
            function.name,
            worst.compared,
            worst.at,
            worst.at.to_bits()
        );
    }
    0
}
