//! Reading and stepping, for every format: what is given for what a format finds in a text.

use super::{within_limit, Answer, Elements};

/// A cell, and where its bytes begin and end: the place of the first of them, and the one just past the last, which
/// completes it.
#[derive(Clone, Copy, Debug, PartialEq, Eq)]
pub struct Complete {
    pub cell: u32,
    pub begin: usize,
    pub end: usize,
}

impl Complete {
    /// A cell of so many bytes up to this end. No cell begins before the text, whatever a cursor made by hand says.
    pub fn of_last(count: usize, end: usize, cell: u32) -> Complete {
        Complete { cell, begin: end.saturating_sub(count), end }
    }
}

/// Where a step starts: the next byte, the cells handed out before it, and what of the text before it still matters.
pub struct Cursor<B> {
    pub at: usize,
    pub handed: usize,
    pub before: B,
}

/// What a format finds in a text: its cells, of which those after a fault mean nothing, and the first fault.
pub struct Found {
    pub cells: Vec<Complete>,
    pub fault: Option<Answer>,
}

/// Finds what a text has from a place on, where this stands before it.
pub type Find<B> = fn(&[u8], usize, B) -> Found;

/// What stepping through a text gives: the cells that are handed out, and the answer of every step after them.
#[derive(Clone, Debug, PartialEq, Eq)]
pub struct Steps {
    pub cells: Vec<Complete>,
    pub answer: Answer,
}

/// Reads a text in a format.
pub fn read<B>(find: Find<B>, before: B, text: &[u8]) -> Elements<u32> {
    within_limit(text.len())?;
    let Found { cells, fault } = find(text, 0, before);
    match fault {
        Some(fault) => Err(fault),
        None => Ok(cells.iter().map(|complete| complete.cell).collect()),
    }
}

/// Steps through a text in a format, from the start or from any cursor: "Each step hands out the next cell complete
/// before the first fault; after those, and at once for 16, every step gives the answer of reading the whole text with
/// room enough."
pub fn steps<B>(find: Find<B>, text: &[u8], Cursor { at, handed, before }: Cursor<B>) -> Steps {
    if let Err(answer) = within_limit(text.len()) {
        return Steps { cells: vec![], answer };
    }
    // A cursor made by hand is not believed: past the end it stands at the end, and it has handed out no more cells
    // than bytes lie before it.
    let at = at.min(text.len());
    let Found { mut cells, fault } = find(text, at, before);
    if let Some(answer) = fault {
        cells.retain(|complete| complete.end <= answer.place);
        return Steps { cells, answer };
    }
    Steps { answer: Answer { number: 0, place: handed.min(at) + cells.len() }, cells }
}

/// The fault that reading a text gives from this place on, of those that its format finds and of high bytes. "In
/// reading, the earliest place decides; at one byte 1, then 2 or 4, then 3, 5 or 6; 7 precedes 8." In mailbox names 17
/// comes "after 4".
pub fn first_fault(text: &[u8], at: usize, faults: impl Iterator<Item = Answer>) -> Option<Answer> {
    let rank = |number: u32| [1, 2, 4, 17, 3, 5, 6, 7, 8].iter().position(|&other| other == number);
    high_bytes(text, at).chain(faults).min_by_key(|fault| (fault.place, rank(fault.number)))
}

/// "1 | byte of 128 or more | that byte"
fn high_bytes(text: &[u8], at: usize) -> impl Iterator<Item = Answer> + '_ {
    let places = (at..text.len()).filter(|&place| text[place] >= 128);
    places.map(|place| Answer { number: 1, place })
}

#[cfg(test)]
mod tests {
    use super::*;
    use crate::formats;

    #[test]
    fn steps_through_the_examples() {
        for format in formats::all() {
            for example in format.steppings.iter().flat_map(|group| &group.examples) {
                assert_eq!((format.steps)(&example.input), example.expected, "{example}");
            }
        }
    }

    #[test]
    fn steps_hand_out_what_reading_gives() {
        for format in formats::all() {
            for example in format.readings.iter().flat_map(|group| &group.examples) {
                let Steps { cells, answer } = (format.steps)(&example.input);
                let cells: Vec<u32> = cells.iter().map(|complete| complete.cell).collect();
                let given = if answer.number == 0 { Ok(cells) } else { Err(answer) };
                assert_eq!(given, example.expected, "{example}");
            }
        }
    }

    #[test]
    fn cells_are_handed_out_as_far_as_a_fault_or_the_end() {
        for format in formats::all() {
            for text in format.source.texts(1, "steps", 2_000, |rng| rng.below(60)) {
                let Steps { cells, answer } = (format.steps)(&text);
                assert!(cells.is_sorted_by_key(|complete| complete.begin));
                assert!(cells.is_sorted_by_key(|complete| complete.end));
                // What comes after the fault changes nothing of what was handed out before it.
                if answer.number != 0 {
                    let before = (format.steps)(&text[..answer.place]);
                    assert_eq!(before.cells, cells, "{}", text.escape_ascii());
                }
            }
        }
    }

    #[test]
    fn a_text_over_the_limit_is_refused_at_once() {
        for format in formats::all() {
            let answer = Answer { number: 16, place: 1_048_576 };
            assert_eq!((format.steps)(&vec![b'a'; 1_048_577]), Steps { cells: vec![], answer });
            assert_eq!((format.steps)(&vec![b'a'; 1_048_576]).cells.len(), 1_048_576);
        }
    }
}
