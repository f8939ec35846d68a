//! Comparing two texts.

use super::RawAnswer;
use crate::second::compare::Comparison;

#[repr(C)]
struct RawCompared {
    answer: RawAnswer,
    text: u32,
    same: u32,
    index: usize,
    first: usize,
    second: usize,
}

extern "C" {
    fn qalithonda_utf7_compare(first: *const u8, first_len: usize, second: *const u8, second_len: usize)
        -> RawCompared;
    fn qalithonda_jp2_compare(first: *const u8, first_len: usize, second: *const u8, second_len: usize) -> RawCompared;
    fn qalithonda_mailbox_compare(
        first: *const u8,
        first_len: usize,
        second: *const u8,
        second_len: usize,
    ) -> RawCompared;
}

/// A function that compares two texts of its format.
pub struct Comparer {
    pub name: &'static str,
    raw: unsafe extern "C" fn(*const u8, usize, *const u8, usize) -> RawCompared,
}

impl Comparer {
    /// What is found, or the numbers that say nothing.
    pub fn call(&self, first: &[u8], second: &[u8]) -> Result<Comparison, String> {
        // SAFETY: each pointer comes with the length of its slice, and nothing is written to.
        let raw = unsafe { (self.raw)(first.as_ptr(), first.len(), second.as_ptr(), second.len()) };
        let RawCompared { answer: RawAnswer { number, place }, text, same, index, first, second } = raw;
        match (number, text, same, index, first, second) {
            (0, 0, 1, 0, 0, 0) => Ok(Comparison::Same { count: place }),
            (0, 0, 0, ..) if place == 0 => Ok(Comparison::Part { index, first, second }),
            (1.., 1 | 2, 0, 0, 0, 0) => Ok(Comparison::Refused { text, answer: raw.answer.into() }),
            numbers => Err(format!("the numbers are {numbers:?} with place {place}")),
        }
    }
}

pub const UTF7: Comparer = Comparer { name: "qalithonda_utf7_compare", raw: qalithonda_utf7_compare };
pub const JP2: Comparer = Comparer { name: "qalithonda_jp2_compare", raw: qalithonda_jp2_compare };
pub const MAILBOX: Comparer = Comparer { name: "qalithonda_mailbox_compare", raw: qalithonda_mailbox_compare };
