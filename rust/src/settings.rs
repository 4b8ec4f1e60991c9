//! What a line is opened with.

use core::fmt;

/// Whether a line makes line bits from plaintext or plaintext from line bits.
#[derive(Clone, Copy, Debug, PartialEq, Eq, Hash)]
pub enum Direction {
    /// Plaintext bits in, line bits out.
    Send,
    /// Line bits in, plaintext bits out.
    Receive,
}

impl Direction {
    pub(crate) fn number(self) -> u64 {
        match self {
            Direction::Send => 0,
            Direction::Receive => 1,
        }
    }
}

/// The settings that both kinds of line share. Two ends of a line have the same
/// but for the direction.
#[derive(Clone, Copy, PartialEq, Eq)]
pub struct Settings<'a> {
    /// 16 bytes.
    pub key: &'a [u8],
    /// 16 bytes: the first counter.
    pub iv: &'a [u8],
    /// The 8 bits looked for on the line, the first on top.
    pub pattern: u8,
    /// The blackout's length in blocks of 128 bits, 1 to 11.
    pub l: u64,
    /// Which end this is.
    pub direction: Direction,
}

/// Leaves the key out.
impl fmt::Debug for Settings<'_> {
    fn fmt(&self, f: &mut fmt::Formatter<'_>) -> fmt::Result {
        f.debug_struct("Settings")
            .field("pattern", &self.pattern)
            .field("l", &self.l)
            .field("direction", &self.direction)
            .finish_non_exhaustive()
    }
}
