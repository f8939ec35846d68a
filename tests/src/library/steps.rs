//! Stepping through a text with a cursor.

use std::fmt::{self, Debug, Display, Formatter};

use super::RawAnswer;
use crate::second::{Answer, Complete};

/// What a host keeps between two steps. Any numbers make a cursor.
pub trait Cursor: Copy + Eq + Debug + 'static {
    /// Where the next step starts, and how many cells were handed out before it.
    fn place(&self) -> (usize, usize);

    /// Its numbers, in the order of the C interface.
    fn numbers(&self) -> Vec<u64>;

    /// The cursor of these numbers, each cut off where its field is shorter.
    fn of_numbers(numbers: &[u64]) -> Self;
}

/// Declares a cursor with its numbers, in the order of the C interface.
macro_rules! cursor {
    ($name:ident { $($field:ident: $number:ty),* }) => {
        #[repr(C)]
        #[derive(Clone, Copy, Debug, PartialEq, Eq)]
        pub struct $name {
            $($field: $number),*
        }

        impl Cursor for $name {
            fn place(&self) -> (usize, usize) {
                (self.at, self.handed)
            }

            fn numbers(&self) -> Vec<u64> {
                vec![$(self.$field as u64),*]
            }

            fn of_numbers(numbers: &[u64]) -> $name {
                let mut numbers = numbers.iter();
                $name { $($field: *numbers.next().expect("a number for each field") as $number),* }
            }
        }
    };
}

cursor!(Utf7Cursor { at: usize, handed: usize, shift: u32, pending: u32, value: u32 });
cursor!(Jp2Cursor { at: usize, handed: usize, g0: u16, g2: u16, phase: u8, first: u8, second: u8 });
cursor!(MailboxCursor { at: usize, handed: usize, shift: u32, pending: u32, value: u32 });

#[repr(C)]
struct RawStepped<C> {
    given: u32,
    cell: u32,
    begin: usize,
    end: usize,
    answer: RawAnswer,
    next: C,
}

extern "C" {
    fn qalithonda_utf7_start() -> Utf7Cursor;
    fn qalithonda_utf7_step(text: *const u8, text_len: usize, cursor: Utf7Cursor) -> RawStepped<Utf7Cursor>;
    fn qalithonda_jp2_start() -> Jp2Cursor;
    fn qalithonda_jp2_step(text: *const u8, text_len: usize, cursor: Jp2Cursor) -> RawStepped<Jp2Cursor>;
    fn qalithonda_mailbox_start() -> MailboxCursor;
    fn qalithonda_mailbox_step(text: *const u8, text_len: usize, cursor: MailboxCursor) -> RawStepped<MailboxCursor>;
}

/// What a step gives.
#[derive(PartialEq, Eq)]
pub struct Stepped<C> {
    pub given: u32,
    pub cell: u32,
    pub begin: usize,
    pub end: usize,
    pub answer: Answer,
    pub next: C,
}

impl<C> Stepped<C> {
    /// A step that hands out a cell with where its bytes begin and end.
    pub fn cell(Complete { cell, begin, end }: Complete, next: C) -> Stepped<C> {
        Stepped { given: 1, cell, begin, end, answer: Answer { number: 0, place: 0 }, next }
    }

    /// A step that gives the final answer.
    pub fn last(answer: Answer, next: C) -> Stepped<C> {
        Stepped { given: 0, cell: 0, begin: 0, end: 0, answer, next }
    }
}

impl<C> From<RawStepped<C>> for Stepped<C> {
    fn from(RawStepped { given, cell, begin, end, answer, next }: RawStepped<C>) -> Stepped<C> {
        Stepped { given, cell, begin, end, answer: answer.into(), next }
    }
}

impl<C: Cursor> Display for Stepped<C> {
    fn fmt(&self, f: &mut Formatter) -> fmt::Result {
        let Stepped { given, cell, begin, end, answer, next } = self;
        write!(f, "given {given}, cell {cell:08X} in {begin}..{end}, answer {answer}, next {next:?}")
    }
}

/// The two functions that step through a text.
pub struct Stepper<C> {
    /// The name of the one that steps.
    pub name: &'static str,
    pub start: fn() -> C,
    pub step: fn(&[u8], C) -> Stepped<C>,
}

// SAFETY of all: each pointer comes with the length of its slice, and nothing is written to.

pub const UTF7: Stepper<Utf7Cursor> = Stepper {
    name: "qalithonda_utf7_step",
    start: || unsafe { qalithonda_utf7_start() },
    step: |text, cursor| unsafe { qalithonda_utf7_step(text.as_ptr(), text.len(), cursor) }.into(),
};

pub const JP2: Stepper<Jp2Cursor> = Stepper {
    name: "qalithonda_jp2_step",
    start: || unsafe { qalithonda_jp2_start() },
    step: |text, cursor| unsafe { qalithonda_jp2_step(text.as_ptr(), text.len(), cursor) }.into(),
};

pub const MAILBOX: Stepper<MailboxCursor> = Stepper {
    name: "qalithonda_mailbox_step",
    start: || unsafe { qalithonda_mailbox_start() },
    step: |text, cursor| unsafe { qalithonda_mailbox_step(text.as_ptr(), text.len(), cursor) }.into(),
};
