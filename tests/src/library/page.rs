//! The calls on a page.

use super::page_file::{self, KEEP};
use super::squeeze::{squeeze, SQUEEZE};
use super::RawAnswer;
use crate::second::page::{mark_of, Page};
use crate::second::{Answer, Call, Kind};

#[repr(C)]
pub struct RawPage {
    kind: u32,
    opening: usize,
    length: usize,
    used: usize,
    done: usize,
    saved: usize,
}

/// QALITHONDA_NEVER_SAVED: no mark. Every other number is one.
pub(super) const NEVER_SAVED: usize = usize::MAX;

impl From<Page> for RawPage {
    fn from(Page { kind, opening, length, used, done, saved }: Page) -> RawPage {
        RawPage { kind, opening, length, used, done, saved: saved.unwrap_or(NEVER_SAVED) }
    }
}

impl From<RawPage> for Page {
    fn from(RawPage { kind, opening, length, used, done, saved }: RawPage) -> Page {
        Page { kind, opening, length, used, done, saved: mark_of(saved) }
    }
}

#[repr(C)]
pub struct RawEdited {
    answer: RawAnswer,
    page: RawPage,
}

#[repr(C)]
pub(super) struct RawAsked {
    pub(super) answer: RawAnswer,
    pub(super) unchanged: u32,
}

type RawOpen = unsafe extern "C" fn(*const u8, usize, *mut u32, usize, *mut u32, usize) -> RawEdited;
type RawTurn = unsafe extern "C" fn(RawPage, *mut u32, usize, *const u32, usize) -> RawEdited;

extern "C" {
    fn qalithonda_utf7_header_open(
        arrived: *const u8,
        arrived_len: usize,
        text: *mut u32,
        text_len: usize,
        history: *mut u32,
        history_len: usize,
    ) -> RawEdited;
    fn qalithonda_utf7_body_open(
        arrived: *const u8,
        arrived_len: usize,
        text: *mut u32,
        text_len: usize,
        history: *mut u32,
        history_len: usize,
    ) -> RawEdited;
    fn qalithonda_jp2_open(
        arrived: *const u8,
        arrived_len: usize,
        text: *mut u32,
        text_len: usize,
        history: *mut u32,
        history_len: usize,
    ) -> RawEdited;
    fn qalithonda_replace(
        page: RawPage,
        place: usize,
        count: usize,
        cells: *const u32,
        cells_len: usize,
        text: *mut u32,
        text_len: usize,
        history: *mut u32,
        history_len: usize,
    ) -> RawEdited;
    fn qalithonda_undo(
        page: RawPage,
        text: *mut u32,
        text_len: usize,
        history: *const u32,
        history_len: usize,
    ) -> RawEdited;
    fn qalithonda_redo(
        page: RawPage,
        text: *mut u32,
        text_len: usize,
        history: *const u32,
        history_len: usize,
    ) -> RawEdited;
    fn qalithonda_save(
        page: RawPage,
        text: *const u32,
        text_len: usize,
        history: *const u32,
        history_len: usize,
        arrived: *const u8,
        arrived_len: usize,
        out: *mut u8,
        out_len: usize,
    ) -> RawEdited;
    fn qalithonda_unchanged(
        page: RawPage,
        text: *const u32,
        text_len: usize,
        history: *const u32,
        history_len: usize,
    ) -> RawAsked;
}

/// The name of the function that a call is made with.
pub fn name(call: &Call) -> &'static str {
    match call {
        Call::Open { kind, .. } => open_name(*kind),
        Call::Replace { .. } => REPLACE,
        Call::Undo => UNDO,
        Call::Redo => REDO,
        Call::Save { .. } => SAVE,
        Call::Keep { .. } => KEEP,
        Call::Squeeze { .. } => SQUEEZE,
    }
}

pub fn open_name(kind: Kind) -> &'static str {
    match kind {
        Kind::Utf7Header => "qalithonda_utf7_header_open",
        Kind::Utf7Body => "qalithonda_utf7_body_open",
        Kind::Jp2 => "qalithonda_jp2_open",
    }
}

pub const REPLACE: &str = "qalithonda_replace";
pub const UNDO: &str = "qalithonda_undo";
pub const REDO: &str = "qalithonda_redo";
pub const SAVE: &str = "qalithonda_save";
pub const UNCHANGED: &str = "qalithonda_unchanged";

/// Makes a call, and gives its answer and the page that it gives back.
pub fn make(
    call: &Call,
    page: Page,
    text: &mut [u32],
    history: &mut [u32],
    output: &mut [u8],
    work: &mut [u32],
) -> (Answer, Page) {
    match call {
        Call::Open { kind, arrived } => open(*kind, arrived, text, history),
        Call::Replace { place, count, cells } => replace(page, *place, *count, cells, text, history),
        Call::Undo => undo(page, text, history),
        Call::Redo => redo(page, text, history),
        Call::Save { arrived, .. } => save(page, text, history, arrived, output),
        // It gives no page back: the caller goes on with its own.
        Call::Keep { arrived, .. } => (page_file::keep(page, text, history, arrived, output), page),
        Call::Squeeze { steps, .. } => squeeze(page, *steps, text, history, work),
    }
}

pub(super) fn given(edited: RawEdited) -> (Answer, Page) {
    (edited.answer.into(), edited.page.into())
}

pub fn open(kind: Kind, arrived: &[u8], text: &mut [u32], history: &mut [u32]) -> (Answer, Page) {
    let raw: RawOpen = match kind {
        Kind::Utf7Header => qalithonda_utf7_header_open,
        Kind::Utf7Body => qalithonda_utf7_body_open,
        Kind::Jp2 => qalithonda_jp2_open,
    };
    // SAFETY: each pointer comes with the length of its slice, and only `text` and `history` are written to.
    given(unsafe {
        raw(arrived.as_ptr(), arrived.len(), text.as_mut_ptr(), text.len(), history.as_mut_ptr(), history.len())
    })
}

pub fn replace(
    page: Page,
    place: usize,
    count: usize,
    cells: &[u32],
    text: &mut [u32],
    history: &mut [u32],
) -> (Answer, Page) {
    // SAFETY: each pointer comes with the length of its slice, and only `text` and `history` are written to.
    given(unsafe {
        qalithonda_replace(
            page.into(),
            place,
            count,
            cells.as_ptr(),
            cells.len(),
            text.as_mut_ptr(),
            text.len(),
            history.as_mut_ptr(),
            history.len(),
        )
    })
}

pub fn undo(page: Page, text: &mut [u32], history: &[u32]) -> (Answer, Page) {
    turn(qalithonda_undo, page, text, history)
}

pub fn redo(page: Page, text: &mut [u32], history: &[u32]) -> (Answer, Page) {
    turn(qalithonda_redo, page, text, history)
}

fn turn(raw: RawTurn, page: Page, text: &mut [u32], history: &[u32]) -> (Answer, Page) {
    // SAFETY: each pointer comes with the length of its slice, and only `text` is written to.
    given(unsafe { raw(page.into(), text.as_mut_ptr(), text.len(), history.as_ptr(), history.len()) })
}

pub fn save(page: Page, text: &[u32], history: &[u32], arrived: &[u8], output: &mut [u8]) -> (Answer, Page) {
    // SAFETY: each pointer comes with the length of its slice, and only `output` is written to.
    given(unsafe {
        qalithonda_save(
            page.into(),
            text.as_ptr(),
            text.len(),
            history.as_ptr(),
            history.len(),
            arrived.as_ptr(),
            arrived.len(),
            output.as_mut_ptr(),
            output.len(),
        )
    })
}

/// Asks whether the page is as it was saved: the answer, and the number that says so.
pub fn ask(page: Page, text: &[u32], history: &[u32]) -> (Answer, u32) {
    // SAFETY: each pointer comes with the length of its slice, and nothing is written to.
    let asked =
        unsafe { qalithonda_unchanged(page.into(), text.as_ptr(), text.len(), history.as_ptr(), history.len()) };
    (asked.answer.into(), asked.unchanged)
}
