//! Keeping a page in a file, and reading it back.

use super::page::{given, RawEdited, RawPage};
use super::RawAnswer;
use crate::second::page::Page;
use crate::second::Answer;

extern "C" {
    fn qalithonda_page_keep(
        page: RawPage,
        text: *const u32,
        text_len: usize,
        history: *const u32,
        history_len: usize,
        arrived: *const u8,
        arrived_len: usize,
        out: *mut u8,
        out_len: usize,
    ) -> RawAnswer;
    fn qalithonda_page_read(
        file: *const u8,
        file_len: usize,
        arrived: *mut u8,
        arrived_len: usize,
        text: *mut u32,
        text_len: usize,
        history: *mut u32,
        history_len: usize,
    ) -> RawEdited;
}

pub const KEEP: &str = "qalithonda_page_keep";
pub const READ: &str = "qalithonda_page_read";

pub fn keep(page: Page, text: &[u32], history: &[u32], arrived: &[u8], output: &mut [u8]) -> Answer {
    // SAFETY: each pointer comes with the length of its slice, and only `output` is written to.
    let raw = unsafe {
        qalithonda_page_keep(
            page.into(),
            text.as_ptr(),
            text.len(),
            history.as_ptr(),
            history.len(),
            arrived.as_ptr(),
            arrived.len(),
            output.as_mut_ptr(),
            output.len(),
        )
    };
    raw.into()
}

pub fn read(file: &[u8], arrived: &mut [u8], text: &mut [u32], history: &mut [u32]) -> (Answer, Page) {
    // SAFETY: each pointer comes with the length of its slice, and `file` is not written to.
    given(unsafe {
        qalithonda_page_read(
            file.as_ptr(),
            file.len(),
            arrived.as_mut_ptr(),
            arrived.len(),
            text.as_mut_ptr(),
            text.len(),
            history.as_mut_ptr(),
            history.len(),
        )
    })
}
