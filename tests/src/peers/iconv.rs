//! glibc's iconv.

use std::ffi::{c_char, c_int, c_void};
use std::ptr::null_mut;

use super::Answers;

extern "C" {
    fn iconv_open(to: *const c_char, from: *const c_char) -> *mut c_void;
    fn iconv(
        state: *mut c_void,
        input: *mut *mut c_char,
        input_left: *mut usize,
        output: *mut *mut c_char,
        output_left: *mut usize,
    ) -> usize;
    fn iconv_close(state: *mut c_void) -> c_int;
}

const FAILED: usize = usize::MAX;

pub fn read_all(texts: &[Vec<u8>]) -> Answers {
    // SAFETY: both names end in NUL.
    let state = unsafe { iconv_open(c"UTF-16LE".as_ptr(), c"UTF-7".as_ptr()) };
    if state as usize == FAILED {
        return Err("iconv has no UTF-7 here".to_string());
    }
    let units = texts.iter().map(|text| read(state, text)).collect();
    // SAFETY: it was opened above, and is not used again.
    unsafe { iconv_close(state) };
    Ok(units)
}

/// The units of a text that is converted whole; `state` is an open one.
fn read(state: *mut c_void, text: &[u8]) -> Option<Vec<u32>> {
    // A byte gives at most one unit.
    let mut output = vec![0u8; 2 * text.len()];
    let (mut input, mut input_left) = (text.as_ptr().cast_mut().cast(), text.len());
    let (mut at, mut left) = (output.as_mut_ptr().cast(), output.len());
    // SAFETY: each pointer comes with the length of its memory, and the text is only read; null pointers put the state
    // back to the start.
    let converted = unsafe {
        iconv(state, null_mut(), null_mut(), null_mut(), null_mut());
        iconv(state, &mut input, &mut input_left, &mut at, &mut left)
    };
    output.truncate(output.len() - left);
    (converted != FAILED && input_left == 0).then(|| super::units(&output))
}
