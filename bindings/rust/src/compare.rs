use std::error::Error;
use std::fmt::{self, Display, Formatter};

use crate::{ffi, Refused};

/// What comparing two texts finds.
#[derive(Clone, Copy, Debug, PartialEq, Eq, Hash)]
pub enum Comparison {
    /// They read as the same cells.
    Same {
        /// How many.
        count: usize,
    },
    /// They part.
    Part {
        /// The first cell that is not the same in both, or that only one text has.
        index: usize,
        /// Where its bytes begin in the first text; the text's length if it has ended.
        first: usize,
        /// Where its bytes begin in the second text; the text's length if it has ended.
        second: usize,
    },
}

/// One of two texts that are compared.
#[derive(Clone, Copy, Debug, PartialEq, Eq, Hash)]
pub enum Text {
    /// The first.
    First,
    /// The second.
    Second,
}

/// A refusal of one of two texts.
#[derive(Clone, Copy, Debug, PartialEq, Eq, Hash)]
pub struct RefusedText {
    /// Which text.
    pub text: Text,
    /// Why, and where in it.
    pub refused: Refused,
}

impl Display for RefusedText {
    fn fmt(&self, f: &mut Formatter<'_>) -> fmt::Result {
        let text = match self.text {
            Text::First => "first",
            Text::Second => "second",
        };
        write!(f, "the {text} text is {}", self.refused)
    }
}

impl Error for RefusedText {}

/// A function of the C interface that compares.
type Compare = unsafe extern "C" fn(*const u8, usize, *const u8, usize) -> ffi::Compared;

pub(crate) fn compare(compare: Compare, first: &[u8], second: &[u8]) -> Result<Comparison, RefusedText> {
    // SAFETY: each pointer comes with the length of its slice.
    let found = unsafe { compare(first.as_ptr(), first.len(), second.as_ptr(), second.len()) };
    let text = if found.text == 1 { Text::First } else { Text::Second };
    let count = found.answer.answer().map_err(|refused| RefusedText { text, refused })?;
    if found.same == 1 {
        return Ok(Comparison::Same { count });
    }
    Ok(Comparison::Part { index: found.index, first: found.first, second: found.second })
}

#[cfg(test)]
mod tests {
    use super::*;
    use crate::utf7;

    #[test]
    fn a_message_says_which_text() {
        let message = |first, second| utf7::compare(first, second).unwrap_err().to_string();
        let stray = "refused with 3: no rule allows the byte at 1 there";
        assert_eq!(message(b"a~", b"b~"), format!("the first text is {stray}"));
        assert_eq!(message(b"ab", b"b~"), format!("the second text is {stray}"));
    }
}
