//! Squeezing the oldest steps.

use super::page::{given, RawEdited, RawPage};
use crate::second::page::Page;
use crate::second::Answer;

extern "C" {
    fn qalithonda_squeeze(
        page: RawPage,
        steps: usize,
        text: *const u32,
        text_len: usize,
        history: *mut u32,
        history_len: usize,
        work: *mut u32,
        work_len: usize,
    ) -> RawEdited;
}

pub const SQUEEZE: &str = "qalithonda_squeeze";

pub fn squeeze(page: Page, steps: usize, text: &[u32], history: &mut [u32], work: &mut [u32]) -> (Answer, Page) {
    // SAFETY: each pointer comes with the length of its slice, and only `history` and `work` are written to.
    given(unsafe {
        qalithonda_squeeze(
            page.into(),
            steps,
            text.as_ptr(),
            text.len(),
            history.as_mut_ptr(),
            history.len(),
            work.as_mut_ptr(),
            work.len(),
        )
    })
}
