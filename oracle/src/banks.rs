//! Banks of the original and of host/, in both ways, built once and held for the whole run.

use host::{lenient, strict};
use std::sync::{Arc, OnceLock};
use wow_dsp::SincBankF32;

pub struct Bank {
    pub max_rate: f64,
    pub rust: Arc<SincBankF32>,
    pub strict: Arc<strict::SincBankF32>,
    /// None for the large one: it would be the same floats again.
    pub lenient: Option<Arc<lenient::SincBankF32>>,
}

/// Rates whose banks are small; 1.02 is a little above 1.02 in f64, so it has two sets.
pub const SMALL: [f64; 3] = [1.0, 1.02, 1.05];
pub const LARGE: f64 = 1.3;

pub fn bank(max_rate: f64) -> &'static Bank {
    static BANKS: [OnceLock<Bank>; 4] = [const { OnceLock::new() }; 4];
    let place = SMALL.iter().position(|r| *r == max_rate).unwrap_or(3);
    BANKS[place].get_or_init(|| {
        let rust = Arc::new(SincBankF32::for_max_rate(max_rate));
        let strict = Arc::new(strict::SincBankF32::for_max_rate(max_rate).expect("a rate in range"));
        let lenient = (max_rate != LARGE).then(|| Arc::new(lenient::SincBankF32::for_max_rate(max_rate)));
        Bank { max_rate, rust, strict, lenient }
    })
}

impl Bank {
    /// The port's sets, one behind the other.
    pub fn sets(&self) -> &[f32] {
        self.strict.sets()
    }
}
