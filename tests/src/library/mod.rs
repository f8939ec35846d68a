//! The C interface of libqalithonda.a, in safe functions on slices.

pub mod benches;
pub mod compare;
pub mod page;
pub mod page_file;
pub mod squeeze;
pub mod steps;

use crate::second::Answer;
use steps::{Jp2Cursor, MailboxCursor, Stepper, Utf7Cursor};

#[repr(C)]
struct RawAnswer {
    number: u32,
    place: usize,
}

impl From<RawAnswer> for Answer {
    fn from(raw: RawAnswer) -> Answer {
        Answer { number: raw.number, place: raw.place }
    }
}

extern "C" {
    fn qalithonda_utf7_read(text: *const u8, text_len: usize, cells: *mut u32, cells_len: usize) -> RawAnswer;
    fn qalithonda_utf7_header_write(cells: *const u32, cells_len: usize, out: *mut u8, out_len: usize) -> RawAnswer;
    fn qalithonda_utf7_body_write(cells: *const u32, cells_len: usize, out: *mut u8, out_len: usize) -> RawAnswer;
    fn qalithonda_jp2_read(text: *const u8, text_len: usize, cells: *mut u32, cells_len: usize) -> RawAnswer;
    fn qalithonda_jp2_plain_read(text: *const u8, text_len: usize, cells: *mut u32, cells_len: usize) -> RawAnswer;
    fn qalithonda_jp2_write(cells: *const u32, cells_len: usize, out: *mut u8, out_len: usize) -> RawAnswer;
    fn qalithonda_jp2_tally(cells: *const u32, cells_len: usize, counts: *mut [u32; 9]) -> RawAnswer;
    fn qalithonda_mailbox_read(text: *const u8, text_len: usize, cells: *mut u32, cells_len: usize) -> RawAnswer;
    fn qalithonda_mailbox_write(cells: *const u32, cells_len: usize, out: *mut u8, out_len: usize) -> RawAnswer;
    fn qalithonda_subject_read(line: *const u8, line_len: usize, cells: *mut u32, cells_len: usize) -> RawAnswer;
    fn qalithonda_subject_write(units: *const u32, units_len: usize, line: *mut u8, line_len: usize) -> RawAnswer;
}

/// A reader or writer: it is lent a list and an output.
pub struct Function<I, O> {
    pub name: &'static str,
    raw: unsafe extern "C" fn(*const I, usize, *mut O, usize) -> RawAnswer,
}

impl<I, O> Function<I, O> {
    pub fn call(&self, input: &[I], output: &mut [O]) -> Answer {
        // SAFETY: each pointer comes with the length of its slice, and only `output` is written to.
        unsafe { (self.raw)(input.as_ptr(), input.len(), output.as_mut_ptr(), output.len()) }.into()
    }
}

/// The functions of a format; the writers are in the order of `Format::writers`.
pub struct Functions<C: 'static> {
    pub read: Function<u8, u32>,
    pub step: Stepper<C>,
    pub write: &'static [Function<u32, u8>],
}

pub const UTF7: Functions<Utf7Cursor> = Functions {
    read: Function { name: "qalithonda_utf7_read", raw: qalithonda_utf7_read },
    step: steps::UTF7,
    write: &[
        Function { name: "qalithonda_utf7_header_write", raw: qalithonda_utf7_header_write },
        Function { name: "qalithonda_utf7_body_write", raw: qalithonda_utf7_body_write },
    ],
};

pub const JP2: Functions<Jp2Cursor> = Functions {
    read: Function { name: "qalithonda_jp2_read", raw: qalithonda_jp2_read },
    step: steps::JP2,
    write: &[Function { name: "qalithonda_jp2_write", raw: qalithonda_jp2_write }],
};

/// "A plain second reader."
pub const JP2_PLAIN_READ: Function<u8, u32> =
    Function { name: "qalithonda_jp2_plain_read", raw: qalithonda_jp2_plain_read };

pub const MAILBOX: Functions<MailboxCursor> = Functions {
    read: Function { name: "qalithonda_mailbox_read", raw: qalithonda_mailbox_read },
    step: steps::MAILBOX,
    write: &[Function { name: "qalithonda_mailbox_write", raw: qalithonda_mailbox_write }],
};

pub const SUBJECT_READ: Function<u8, u32> = Function { name: "qalithonda_subject_read", raw: qalithonda_subject_read };

pub const SUBJECT_WRITE: Function<u32, u8> =
    Function { name: "qalithonda_subject_write", raw: qalithonda_subject_write };

pub const JP2_TALLY: &str = "qalithonda_jp2_tally";

pub fn jp2_tally(cells: &[u32], counts: &mut [u32; 9]) -> Answer {
    // SAFETY: the pointer comes with the length of its slice, and only `counts` is written to.
    unsafe { qalithonda_jp2_tally(cells.as_ptr(), cells.len(), counts) }.into()
}
