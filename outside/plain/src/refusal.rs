//! Why a scene is refused.

use std::fmt;

/// A refusal: places are byte offsets in the scene, lengths count records.
#[derive(Clone, Copy, Debug, PartialEq, Eq)]
pub enum Refusal {
    /// The bytes end before a due record does.
    Short { place: usize },
    /// Another mark stands there.
    Mark { place: usize },
    /// A header field is outside its range.
    Header { place: usize },
    /// A cell's board, zero byte or corner is outside its range.
    Cell { place: usize },
    /// Two corners of a cell are equal.
    Corners { place: usize },
    /// A word that the scene's kind does not use is not zero.
    Word { place: usize },
    /// Bytes follow the end.
    Trailing { place: usize },
    /// There is no room for the plan's copies.
    Copies { needed: usize },
    /// There is no room for the plan's edges.
    Edges { needed: usize },
}

impl Refusal {
    pub fn number(self) -> u8 {
        match self {
            Refusal::Short { .. } => 1,
            Refusal::Mark { .. } => 2,
            Refusal::Header { .. } => 3,
            Refusal::Cell { .. } => 4,
            Refusal::Corners { .. } => 5,
            Refusal::Word { .. } => 6,
            Refusal::Trailing { .. } => 7,
            Refusal::Copies { .. } | Refusal::Edges { .. } => 8,
        }
    }

    /// The value that is printed: a place or a length.
    pub fn last(self) -> usize {
        match self {
            Refusal::Short { place }
            | Refusal::Mark { place }
            | Refusal::Header { place }
            | Refusal::Cell { place }
            | Refusal::Corners { place }
            | Refusal::Word { place }
            | Refusal::Trailing { place } => place,
            Refusal::Copies { needed } | Refusal::Edges { needed } => needed,
        }
    }
}

impl fmt::Display for Refusal {
    fn fmt(&self, f: &mut fmt::Formatter<'_>) -> fmt::Result {
        write!(f, "refused {} at {}", self.number(), self.last())
    }
}

impl std::error::Error for Refusal {}
