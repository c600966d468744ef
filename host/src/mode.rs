//! How the sum called I0, of which a table's window is made, may end.

/// In the original 24 terms end it, which is short of I0 for a beta above about 10.9; in full it goes on until its terms
/// no longer count. An exported function is handed the mode's number.
#[derive(Clone, Copy, Debug, Default, Eq, PartialEq)]
#[repr(u8)]
pub enum Mode {
    #[default]
    Ported = 0,
    Full = 1,
}
