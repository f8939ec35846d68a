//! The C interface, as include/qalithonda.h declares it.
//!
//! What its functions need, and why a safe caller always has it: pointers that are valid for their lengths, aligned and
//! not null, as those of slices are, empty ones too; and buffers that do not overlap, because what a call writes to is
//! borrowed by `&mut` or owned by its page or benches. Any number is taken, in a page, benches or a cursor as well.

use crate::{Refusal, Refused};

#[derive(Clone, Copy, Debug)]
#[repr(C)]
pub struct Numbers {
    pub number: u32,
    pub place: usize,
}

impl Numbers {
    pub fn answer(self) -> Result<usize, Refused> {
        if self.number == 0 {
            return Ok(self.place);
        }
        match Refusal::of(self.number) {
            Some(refusal) => Err(Refused { refusal, place: self.place }),
            None => panic!("libqalithonda.a answered {}, a number that this crate does not know", self.number),
        }
    }
}

#[derive(Clone, Copy, Debug)]
#[repr(C)]
pub struct Page {
    pub kind: u32,
    pub opening: usize,
    pub length: usize,
    pub used: usize,
    pub done: usize,
    pub saved: usize,
}

/// The `saved` of a page that has no mark.
pub const NEVER_SAVED: usize = usize::MAX;

#[repr(C)]
pub struct Edited {
    pub answer: Numbers,
    pub page: Page,
}

#[derive(Clone, Copy, Debug)]
#[repr(C)]
pub struct Bench {
    pub kind: u32,
    pub opening: usize,
    pub length: usize,
    pub standing: usize,
    pub saved: usize,
}

#[derive(Clone, Copy, Debug)]
#[repr(C)]
pub struct Benches {
    pub bench0: Bench,
    pub bench1: Bench,
    pub used: usize,
}

#[repr(C)]
pub struct BenchesEdited {
    pub answer: Numbers,
    pub benches: Benches,
}

#[repr(C)]
pub struct Asked {
    pub answer: Numbers,
    pub unchanged: u32,
}

#[repr(C)]
pub struct Compared {
    pub answer: Numbers,
    pub text: u32,
    pub same: u32,
    pub index: usize,
    pub first: usize,
    pub second: usize,
}

#[derive(Clone, Copy, Debug)]
#[repr(C)]
pub struct Utf7Cursor {
    at: usize,
    handed: usize,
    shift: u32,
    pending: u32,
    value: u32,
}

#[repr(C)]
pub struct Utf7Stepped {
    pub given: u32,
    pub cell: u32,
    pub begin: usize,
    pub end: usize,
    pub answer: Numbers,
    pub next: Utf7Cursor,
}

#[derive(Clone, Copy, Debug)]
#[repr(C)]
pub struct Jp2Cursor {
    at: usize,
    handed: usize,
    g0: u16,
    g2: u16,
    phase: u8,
    first: u8,
    second: u8,
}

#[repr(C)]
pub struct Jp2Stepped {
    pub given: u32,
    pub cell: u32,
    pub begin: usize,
    pub end: usize,
    pub answer: Numbers,
    pub next: Jp2Cursor,
}

#[derive(Clone, Copy, Debug)]
#[repr(C)]
pub struct MailboxCursor {
    at: usize,
    handed: usize,
    shift: u32,
    pending: u32,
    value: u32,
}

#[repr(C)]
pub struct MailboxStepped {
    pub given: u32,
    pub cell: u32,
    pub begin: usize,
    pub end: usize,
    pub answer: Numbers,
    pub next: MailboxCursor,
}

extern "C" {
    pub fn qalithonda_utf7_read(text: *const u8, text_len: usize, cells: *mut u32, cells_len: usize) -> Numbers;
    pub fn qalithonda_utf7_header_write(cells: *const u32, cells_len: usize, out: *mut u8, out_len: usize) -> Numbers;
    pub fn qalithonda_utf7_body_write(cells: *const u32, cells_len: usize, out: *mut u8, out_len: usize) -> Numbers;
    pub fn qalithonda_utf7_start() -> Utf7Cursor;
    pub fn qalithonda_utf7_step(text: *const u8, text_len: usize, cursor: Utf7Cursor) -> Utf7Stepped;
    pub fn qalithonda_utf7_compare(
        first: *const u8,
        first_len: usize,
        second: *const u8,
        second_len: usize,
    ) -> Compared;

    pub fn qalithonda_jp2_read(text: *const u8, text_len: usize, cells: *mut u32, cells_len: usize) -> Numbers;
    pub fn qalithonda_jp2_plain_read(text: *const u8, text_len: usize, cells: *mut u32, cells_len: usize) -> Numbers;
    pub fn qalithonda_jp2_write(cells: *const u32, cells_len: usize, out: *mut u8, out_len: usize) -> Numbers;
    pub fn qalithonda_jp2_tally(cells: *const u32, cells_len: usize, counts: *mut [u32; 9]) -> Numbers;
    pub fn qalithonda_jp2_start() -> Jp2Cursor;
    pub fn qalithonda_jp2_step(text: *const u8, text_len: usize, cursor: Jp2Cursor) -> Jp2Stepped;
    pub fn qalithonda_jp2_compare(first: *const u8, first_len: usize, second: *const u8, second_len: usize)
        -> Compared;

    pub fn qalithonda_mailbox_read(text: *const u8, text_len: usize, cells: *mut u32, cells_len: usize) -> Numbers;
    pub fn qalithonda_mailbox_write(cells: *const u32, cells_len: usize, out: *mut u8, out_len: usize) -> Numbers;
    pub fn qalithonda_mailbox_start() -> MailboxCursor;
    pub fn qalithonda_mailbox_step(text: *const u8, text_len: usize, cursor: MailboxCursor) -> MailboxStepped;
    pub fn qalithonda_mailbox_compare(
        first: *const u8,
        first_len: usize,
        second: *const u8,
        second_len: usize,
    ) -> Compared;

    pub fn qalithonda_subject_read(line: *const u8, line_len: usize, cells: *mut u32, cells_len: usize) -> Numbers;
    pub fn qalithonda_subject_write(units: *const u32, units_len: usize, line: *mut u8, line_len: usize) -> Numbers;

    pub fn qalithonda_utf7_header_open(
        arrived: *const u8,
        arrived_len: usize,
        text: *mut u32,
        text_len: usize,
        history: *mut u32,
        history_len: usize,
    ) -> Edited;
    pub fn qalithonda_utf7_body_open(
        arrived: *const u8,
        arrived_len: usize,
        text: *mut u32,
        text_len: usize,
        history: *mut u32,
        history_len: usize,
    ) -> Edited;
    pub fn qalithonda_jp2_open(
        arrived: *const u8,
        arrived_len: usize,
        text: *mut u32,
        text_len: usize,
        history: *mut u32,
        history_len: usize,
    ) -> Edited;
    pub fn qalithonda_replace(
        page: Page,
        place: usize,
        count: usize,
        cells: *const u32,
        cells_len: usize,
        text: *mut u32,
        text_len: usize,
        history: *mut u32,
        history_len: usize,
    ) -> Edited;
    pub fn qalithonda_undo(
        page: Page,
        text: *mut u32,
        text_len: usize,
        history: *const u32,
        history_len: usize,
    ) -> Edited;
    pub fn qalithonda_redo(
        page: Page,
        text: *mut u32,
        text_len: usize,
        history: *const u32,
        history_len: usize,
    ) -> Edited;
    pub fn qalithonda_save(
        page: Page,
        text: *const u32,
        text_len: usize,
        history: *const u32,
        history_len: usize,
        arrived: *const u8,
        arrived_len: usize,
        out: *mut u8,
        out_len: usize,
    ) -> Edited;
    pub fn qalithonda_squeeze(
        page: Page,
        steps: usize,
        text: *const u32,
        text_len: usize,
        history: *mut u32,
        history_len: usize,
        work: *mut u32,
        work_len: usize,
    ) -> Edited;
    pub fn qalithonda_unchanged(
        page: Page,
        text: *const u32,
        text_len: usize,
        history: *const u32,
        history_len: usize,
    ) -> Asked;
    pub fn qalithonda_page_keep(
        page: Page,
        text: *const u32,
        text_len: usize,
        history: *const u32,
        history_len: usize,
        arrived: *const u8,
        arrived_len: usize,
        out: *mut u8,
        out_len: usize,
    ) -> Numbers;
    pub fn qalithonda_page_read(
        file: *const u8,
        file_len: usize,
        arrived: *mut u8,
        arrived_len: usize,
        text: *mut u32,
        text_len: usize,
        history: *mut u32,
        history_len: usize,
    ) -> Edited;

    pub fn qalithonda_benches_open(
        kind0: u32,
        kind1: u32,
        arrived0: *const u8,
        arrived0_len: usize,
        arrived1: *const u8,
        arrived1_len: usize,
        text0: *mut u32,
        text0_len: usize,
        text1: *mut u32,
        text1_len: usize,
        history: *mut u32,
        history_len: usize,
    ) -> BenchesEdited;
    pub fn qalithonda_benches_replace(
        benches: Benches,
        bench: usize,
        place: usize,
        count: usize,
        cells: *const u32,
        cells_len: usize,
        text0: *mut u32,
        text0_len: usize,
        text1: *mut u32,
        text1_len: usize,
        history: *mut u32,
        history_len: usize,
    ) -> BenchesEdited;
    pub fn qalithonda_benches_undo(
        benches: Benches,
        bench: usize,
        text0: *mut u32,
        text0_len: usize,
        text1: *mut u32,
        text1_len: usize,
        history: *const u32,
        history_len: usize,
    ) -> BenchesEdited;
    pub fn qalithonda_benches_redo(
        benches: Benches,
        bench: usize,
        text0: *mut u32,
        text0_len: usize,
        text1: *mut u32,
        text1_len: usize,
        history: *const u32,
        history_len: usize,
    ) -> BenchesEdited;
    pub fn qalithonda_benches_save(
        benches: Benches,
        bench: usize,
        text0: *const u32,
        text0_len: usize,
        text1: *const u32,
        text1_len: usize,
        history: *const u32,
        history_len: usize,
        arrived: *const u8,
        arrived_len: usize,
        out: *mut u8,
        out_len: usize,
    ) -> BenchesEdited;
    pub fn qalithonda_benches_unchanged(
        benches: Benches,
        bench: usize,
        text0: *const u32,
        text0_len: usize,
        text1: *const u32,
        text1_len: usize,
        history: *const u32,
        history_len: usize,
    ) -> Asked;
}

#[cfg(test)]
mod tests {
    use super::*;
    use std::mem::size_of;

    /// A struct that is too small would be written past its end. These are the sizes that C gives them on x86-64.
    #[test]
    fn structs_have_their_sizes_in_c() {
        assert_eq!(size_of::<Numbers>(), 16);
        assert_eq!(size_of::<Page>(), 48);
        assert_eq!(size_of::<Edited>(), 64);
        assert_eq!(size_of::<Asked>(), 24);
        assert_eq!(size_of::<Bench>(), 40);
        assert_eq!(size_of::<Benches>(), 88);
        assert_eq!(size_of::<BenchesEdited>(), 104);
        assert_eq!(size_of::<Utf7Cursor>(), 32);
        assert_eq!(size_of::<Utf7Stepped>(), 72);
        assert_eq!(size_of::<Jp2Cursor>(), 24);
        assert_eq!(size_of::<Jp2Stepped>(), 64);
        assert_eq!(size_of::<MailboxCursor>(), 32);
        assert_eq!(size_of::<MailboxStepped>(), 72);
    }
}
