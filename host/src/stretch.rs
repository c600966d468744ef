//! What a stretch answers that was not done to its end.

use crate::Refusal;
use std::{error::Error, fmt};

/// A stretch that was refused: how many items were done before, and why. Their outputs are written; the refused item's and
/// the later ones are as they were.
#[derive(Clone, Copy, Debug, Eq, PartialEq)]
pub struct Stopped {
    pub done: usize,
    pub refusal: Refusal,
}

impl Stopped {
    /// From the items done and the refusal's number, 0 for none.
    pub(crate) fn of(done: usize, number: u8) -> Result<(), Self> {
        Refusal::of(number).map_err(|refusal| Self { done, refusal })
    }
}

impl fmt::Display for Stopped {
    fn fmt(&self, f: &mut fmt::Formatter) -> fmt::Result {
        write!(f, "item {}: {}", self.done, self.refusal)
    }
}

impl Error for Stopped {}
