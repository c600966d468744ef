//! The memory of a run, and what it is filled with.

use super::memory::Region;
use crate::random::Random;

/// What a run lends from: the same at every call.
pub struct Memory {
    pub ring: Region,
    pub table: Region,
    pub source: Region,
    pub words: Region,
    /// The inputs and the delays of a stretch.
    pub inputs: Region,
    pub delays: Region,
    /// The coefficients and histories of an oversampled reader.
    pub filters: [Region; 6],
    /// Sets of a bank, of anything.
    pub sets: Region,
    pub doubles: &'static [f64],
    pub floats: &'static [f32],
    pub wholes: &'static [i32],
    pub bytes: &'static [u8],
}

/// The floats of a set.
pub const SET: usize = 1_081_648;
/// How many sets a bank has at most here.
pub const SETS: usize = 3;

impl Memory {
    pub fn new(seed: u64) -> Self {
        const POOL: usize = 1 << 16;
        let mut random = Random::new(seed ^ 0x5EED);
        // first those of which one in 97 is odd, since a sum over more gives little but NaN; then of any bits
        let doubles: Vec<f64> = (0..POOL).map(|k| if k < POOL / 2 { random.seldom_odd() } else { random.float() }).collect();
        let floats: Vec<f32> = (0..POOL).map(|k| if k < POOL / 2 { random.seldom_odd() as f32 } else { random.float32() }).collect();
        let (doubles, floats) = (doubles.leak(), floats.leak());
        let wholes: Vec<i32> = floats.iter().map(|x| x.to_bits() as i32).collect();
        let bytes: Vec<u8> = doubles.iter().flat_map(|x| x.to_bits().to_le_bytes()).collect();
        Memory {
            ring: Region::new(8 << 24),
            table: Region::new(8 * 4097 * 128),
            source: Region::new(8 << 16),
            words: Region::new(8 * 16),
            inputs: Region::new(8 * 256),
            delays: Region::new(8 * 256),
            filters: std::array::from_fn(|_| Region::new(8 * 256)),
            sets: Region::new(4 * (SETS * SET + 1)).only_read(&floats[..POOL / 2]),
            doubles,
            floats,
            wholes: wholes.leak(),
            bytes: bytes.leak(),
        }
    }
}
