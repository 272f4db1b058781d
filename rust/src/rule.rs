//! The tie rules of least and of reductions.

/// Which of several least contributors goes.
#[derive(Clone, Copy, Debug, Default, PartialEq, Eq, Hash)]
#[repr(u8)]
pub enum TieRule {
    /// The one with the lowest trial number.
    #[default]
    Lowest = 0,
    /// The one with the highest trial number.
    Highest = 1,
}

impl TieRule {
    /// Its number in the C interface.
    pub fn number(self) -> u64 {
        self as u64
    }
}
