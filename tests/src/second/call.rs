//! The calls that are made on a page.

use super::Kind;

/// A call with what belongs to it alone: "Cells to add, arrived bytes and output belong to one call and may differ each
/// time."
#[derive(Clone, Debug, PartialEq, Eq)]
pub enum Call {
    Open { kind: Kind, arrived: Vec<u8> },
    Replace { place: usize, count: usize, cells: Vec<u32> },
    Undo,
    Redo,
    Save { arrived: Vec<u8>, room: usize },
    Keep { arrived: Vec<u8>, room: usize },
    Squeeze { steps: usize, work: usize },
}

impl Call {
    /// The length of the work buffer lent to it.
    pub fn work(&self) -> usize {
        match self {
            Call::Squeeze { work, .. } => *work,
            _ => 0,
        }
    }

    /// The length of the output lent to it.
    pub fn room(&self) -> usize {
        match self {
            Call::Save { room, .. } | Call::Keep { room, .. } => *room,
            _ => 0,
        }
    }
}
