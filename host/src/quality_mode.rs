//! The four qualities, in the original's order: an exported function is handed a quality's place, from 0.

#[derive(Clone, Copy, Debug, Default, Eq, PartialEq)]
#[repr(u8)]
pub enum QualityMode {
    Draft = 0,
    Normal = 1,
    #[default]
    Hq = 2,
    Ultra = 3,
}
