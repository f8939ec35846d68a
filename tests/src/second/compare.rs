//! Order 11 of document 02, "Are these the same letter?": two texts of one format, read apart, and then their cells
//! laid side by side.

use std::fmt::{self, Display, Formatter};

use super::{Answer, Steps};

/// What a comparer gives.
#[derive(Clone, Copy, Debug, PartialEq, Eq)]
pub enum Comparison {
    /// "the same, with the count of cells"
    Same { count: usize },
    /// "the first cell index at which they part with the byte place in each where that cell begins"
    Part { index: usize, first: usize, second: usize },
    /// "saying which text": 1 or 2.
    Refused { text: u32, answer: Answer },
}

impl Display for Comparison {
    fn fmt(&self, f: &mut Formatter) -> fmt::Result {
        match self {
            Comparison::Same { count } => write!(f, "the same, {count} cells"),
            Comparison::Part { index, first, second } => write!(f, "cell {index} at {first} and {second}"),
            Comparison::Refused { text, answer } => write!(f, "text {text} refused with {answer}"),
        }
    }
}

/// Compares two texts with these steps of their format.
pub fn compare(steps: fn(&[u8]) -> Steps, first: &[u8], second: &[u8]) -> Comparison {
    let (one, two) = (steps(first), steps(second));
    // "Refusals: those of reading without 9, all of the first text's, 16 too, before the second's"
    for (text, Steps { answer, .. }) in [(1, &one), (2, &two)] {
        if answer.number != 0 {
            return Comparison::Refused { text, answer: *answer };
        }
    }
    let cell = |steps: &Steps, index: usize| steps.cells.get(index).map(|complete| complete.cell);
    // "(the text length if it has ended)"
    let begin = |steps: &Steps, index: usize, text: &[u8]| steps.cells.get(index).map_or(text.len(), |one| one.begin);
    let longest = one.cells.len().max(two.cells.len());
    match (0..longest).find(|&index| cell(&one, index) != cell(&two, index)) {
        None => Comparison::Same { count: longest },
        Some(index) => Comparison::Part { index, first: begin(&one, index, first), second: begin(&two, index, second) },
    }
}

/// What same_letter prints of it, every line ended by LF as the listers' are.
pub fn print(found: &Comparison) -> String {
    match found {
        Comparison::Same { count } => format!("status=0\ncount={count}\n"),
        Comparison::Part { index, first, second } => {
            format!("status=0\nindex={index}\nfirst={first}\nsecond={second}\n")
        }
        Comparison::Refused { text, answer: Answer { number, place } } => {
            format!("status={number}\ntext={text}\nplace={place}\n")
        }
    }
}

#[cfg(test)]
mod tests {
    use super::*;
    use crate::examples::compare::{examples, Example};

    #[test]
    fn compares_the_examples() {
        for format in crate::formats::all() {
            for Example { first, second, expected } in examples(format.name) {
                assert_eq!(compare(format.steps, &first, &second), expected);
            }
        }
    }
}
