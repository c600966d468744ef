//! The original's answers as lists: `store DIR` writes DIR/replay_NAME/stdin and stdout for each.
//!
//! A line of stdin is one call: its letter and its arguments as words of 16 hex digits in capitals,
//! one blank between two. The answer is the line of stdout beside it, in words likewise, or stands
//! among the words of the call, and stdout says how many there are. A float is its pattern; a NaN
//! that is an answer is 7FF8000000000000, of f32 7FC00000. Every line of a list has the same length.

mod random;
mod lists {
    pub mod bank;
    pub mod delays;
    pub mod sinc;
    pub mod wander;
}

/// A file of lists/ each.
const LISTS: [(&str, fn(&mut List)); 4] = [
    ("bank", lists::bank::write),
    ("delays", lists::delays::write),
    ("sinc", lists::sinc::write),
    ("wander", lists::wander::write),
];

pub struct List {
    stdin: String,
    stdout: String,
}

impl List {
    pub fn line(&mut self, letter: char, call: [u64; 3], answer: u64, count: u64) {
        self.call(letter, ' ', call);
        self.answer(answer, count);
    }

    /// A line of answers alone.
    pub fn answer(&mut self, a: u64, b: u64) {
        self.stdout += &format!("{a:016X} {b:016X}\n");
    }

    /// A call whose answer, if it has one, is among its words.
    pub fn call(&mut self, letter: char, mark: char, [a, b, c]: [u64; 3]) {
        self.stdin += &format!("{letter}{mark}{a:016X} {b:016X} {c:016X}\n");
    }

    pub fn say(&mut self, line: &str) {
        self.stdout += line;
        self.stdout += "\n";
    }
}

pub fn pattern(x: f64) -> u64 {
    if x.is_nan() {
        0x7FF8_0000_0000_0000
    } else {
        x.to_bits()
    }
}

/// Likewise of an f32, in a word: its NaN is 7FC00000.
pub fn pattern_f32(x: f32) -> u64 {
    if x.is_nan() {
        0x7FC0_0000
    } else {
        x.to_bits() as u64
    }
}

fn main() {
    std::process::exit(status())
}

/// What the program does, and the exit status that it ends with.
fn status() -> i32 {
    let dir = std::env::args().nth(1).expect("DIR");
    for (name, write) in LISTS {
        let mut list = List { stdin: String::new(), stdout: String::new() };
        write(&mut list);
        let to = format!("{dir}/replay_{name}");
        std::fs::create_dir_all(&to).expect("a folder for the list");
        std::fs::write(format!("{to}/stdin"), &list.stdin).expect("stdin");
        std::fs::write(format!("{to}/stdout"), &list.stdout).expect("stdout");
        println!("replay_{name}: {} lines", list.stdin.lines().count());
    }
    0
}
