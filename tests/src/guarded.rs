//! Memory between two stretches of pages that nothing may touch. An access beside what is lent ends the process, if it
//! is on the side that the memory is flush with; so does writing to memory that is lent to be read.

use std::ffi::{c_char, c_int, c_uint, c_void};
use std::{ptr, slice};

use crate::second::LIMIT;

extern "C" {
    fn mmap(address: *mut c_void, length: usize, access: c_int, flags: c_int, file: c_int, offset: i64) -> *mut c_void;
    fn munmap(address: *mut c_void, length: usize) -> c_int;
    fn memfd_create(name: *const c_char, flags: c_uint) -> c_int;
    fn ftruncate(file: c_int, length: i64) -> c_int;
    fn close(file: c_int) -> c_int;
}

/// What may be done with pages.
const NOTHING: c_int = 0;
const READ: c_int = 1;
const READ_AND_WRITE: c_int = 3;

/// MAP_PRIVATE and MAP_ANONYMOUS: pages of this process alone, of no file.
const OWN_PAGES: c_int = 0x22;

/// MAP_SHARED and MAP_FIXED: the pages of a file, in the place of others.
const IN_PLACE: c_int = 0x11;

/// The length of a guard: a multiple of the page size of every machine.
const GUARD: usize = 65_536;

/// Bytes between the guards: the longest page file, with as many arrived bytes, cells and words as can be, and more.
const CAPACITY: usize = 20 * LIMIT;

/// The guard that lent memory touches.
#[derive(Clone, Copy, PartialEq, Eq)]
pub enum Side {
    Front,
    Back,
}

/// The same memory twice, each time between guards of its own: to be read and written to, and to be read. So no access
/// has to be changed from one call to the next.
pub struct Guarded {
    /// Where the front guard of each ends.
    to_write: *mut u8,
    to_read: *mut u8,
}

impl Guarded {
    pub fn new() -> Guarded {
        // SAFETY: the file is new, and closed once its pages stand between the guards.
        unsafe {
            let file = memfd_create(c"guarded".as_ptr(), 0);
            assert!(file >= 0 && ftruncate(file, CAPACITY as i64) == 0, "a file in memory");
            let memory =
                Guarded { to_write: between_guards(file, READ_AND_WRITE), to_read: between_guards(file, READ) };
            close(file);
            memory
        }
    }

    /// Lends these elements to be read and written to.
    pub fn lend<T: Copy>(&mut self, contents: &[T], side: Side) -> &mut [T] {
        self.put(contents, side);
        // SAFETY: so many elements were put there, and they are borrowed from this memory.
        unsafe { slice::from_raw_parts_mut(place(self.to_write, contents.len(), side), contents.len()) }
    }

    /// Lends these elements to be read.
    pub fn lend_to_read<T: Copy>(&mut self, contents: &[T], side: Side) -> &[T] {
        self.put(contents, side);
        // SAFETY: so many elements were put there, and they are borrowed from this memory.
        unsafe { slice::from_raw_parts(place(self.to_read, contents.len(), side), contents.len()) }
    }

    /// So many elements as they stand there now.
    pub fn contents<T: Copy>(&self, length: usize, side: Side) -> Vec<T> {
        // SAFETY: so many elements were lent there before.
        unsafe { slice::from_raw_parts(place(self.to_read, length, side), length) }.to_vec()
    }

    /// Copies these elements to the place next to a guard.
    fn put<T: Copy>(&mut self, contents: &[T], side: Side) {
        let place: *mut T = place(self.to_write, contents.len(), side);
        // SAFETY: there is room for so many elements.
        unsafe { place.copy_from_nonoverlapping(contents.as_ptr(), contents.len()) };
    }
}

impl Drop for Guarded {
    fn drop(&mut self) {
        for start in [self.to_write, self.to_read] {
            // SAFETY: these are the pages that `new` was given, and what was borrowed of them is gone.
            unsafe { munmap(start.sub(GUARD).cast(), GUARD + CAPACITY + GUARD) };
        }
    }
}

/// A file's bytes between two guards: where the first guard ends.
fn between_guards(file: c_int, access: c_int) -> *mut u8 {
    // SAFETY: the pages are new, and the part between the guards lies within them.
    unsafe {
        let whole = mmap(ptr::null_mut(), GUARD + CAPACITY + GUARD, NOTHING, OWN_PAGES, -1, 0);
        assert!(whole.addr() != usize::MAX, "pages are given");
        let start = whole.cast::<u8>().add(GUARD);
        assert_eq!(mmap(start.cast(), CAPACITY, access, IN_PLACE, file, 0), start.cast(), "they are the file's");
        start
    }
}

/// The place of so many elements next to a guard; both ends are aligned for elements that are shorter than a page.
fn place<T>(start: *mut u8, length: usize, side: Side) -> *mut T {
    let free = CAPACITY.checked_sub(length * size_of::<T>()).expect("a list that fits");
    let offset = if side == Side::Front { 0 } else { free };
    // SAFETY: it lies between the guards.
    unsafe { start.add(offset) }.cast()
}

#[cfg(test)]
mod tests {
    use super::*;
    use std::io::{pipe, Read, Write};

    /// EFAULT: what the system answers instead of touching memory that may not be touched.
    const REFUSED: Option<i32> = Some(14);

    /// Whether the byte at an address can be read, as the system finds that is asked to write it to a pipe.
    fn can_read(address: *const u8) -> bool {
        let (_reader, mut writer) = pipe().expect("a pipe");
        // SAFETY: only the system looks at the byte.
        match writer.write(unsafe { slice::from_raw_parts(address, 1) }) {
            Ok(count) => count == 1,
            Err(error) if error.raw_os_error() == REFUSED => false,
            Err(error) => panic!("{error}"),
        }
    }

    /// Whether the byte at an address can be written to, as the system finds that is asked to read a pipe into it.
    fn can_write(address: *const u8) -> bool {
        let (mut reader, mut writer) = pipe().expect("a pipe");
        writer.write_all(&[7]).expect("room in the pipe");
        // SAFETY: only the system touches the byte, which is of memory that nothing is borrowed of.
        match reader.read(unsafe { slice::from_raw_parts_mut(address.cast_mut(), 1) }) {
            Ok(count) => count == 1,
            Err(error) if error.raw_os_error() == REFUSED => false,
            Err(error) => panic!("{error}"),
        }
    }

    #[test]
    fn both_guards_are_touched_by_what_is_lent() {
        let mut memory = Guarded::new();
        for length in [0, 1, 3, 300, LIMIT + 1] {
            let list: Vec<u32> = (0..length as u32).collect();
            let lent = memory.lend(&list, Side::Front);
            assert!(*lent == list);
            assert!(!can_read(lent.as_ptr().cast::<u8>().wrapping_sub(1)));
            let lent = memory.lend(&list, Side::Back);
            assert!(*lent == list);
            assert!(!can_read(lent.as_ptr_range().end.cast()));
        }
    }

    #[test]
    fn what_is_lent_to_be_read_cannot_be_written_to() {
        let mut memory = Guarded::new();
        for side in [Side::Front, Side::Back] {
            let lent = memory.lend_to_read(&[1u8, 2], side).as_ptr();
            assert!(can_read(lent) && !can_write(lent));
            let lent = memory.lend(&[1u8, 2], side).as_ptr();
            assert!(can_read(lent) && can_write(lent));
        }
    }
}
