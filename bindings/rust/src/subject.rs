//! Subject lines: words of RFC 2047, `=?utf-7?Q?` to `?=`, of at most 75 characters, joined by CR, LF and a space. A cell
//! is a UTF-16 unit, 0 to 65535; half a surrogate pair is a unit like any other.
//!
//! ```
//! use qalithonda::subject;
//!
//! let cells: Vec<u32> = "Re: 日本語?".encode_utf16().map(u32::from).collect();
//! assert_eq!(subject::write_to_vec(&cells)?, b"=?utf-7?Q?Re:_+ZeVnLIqe-=3F?=");
//! assert_eq!(subject::read_to_vec(b"=?utf-7?Q?Re:_+ZeVnLIqe-=3F?=")?, cells);
//! # Ok::<(), qalithonda::Refused>(())
//! ```

use crate::{ffi, room, Refused};

/// Reads a line into the first elements of `cells`, and gives their count. It may be any line of such words, however the
/// units are shared among them. A line of n bytes has at most n cells.
///
/// A refusal leaves `cells` as it was: [`OverLimit`], [`BadWord`], [`HighByte`], [`LoneSign`], [`StrayByte`],
/// [`LeftOverBits`], [`NoRoom`]. The place is one in the line: of an `=` pair its `=`, of the end of a word its `?`.
///
/// ```
/// use qalithonda::{subject, Refusal, Refused};
///
/// let mut cells = [0; 9];
/// let count = subject::read(b"=?utf-7?Q?a?=\r\n =?utf-7?Q?_=62?=", &mut cells)?;
/// assert_eq!(cells[..count], [0x61, 0x20, 0x62]);
///
/// // A word is not empty, and its end is no place to leave bits over.
/// let refused = |refusal, place| Err(Refused { refusal, place });
/// assert_eq!(subject::read(b"=?utf-7?Q??=", &mut cells), refused(Refusal::BadWord, 10));
/// assert_eq!(subject::read(b"=?utf-7?Q?+AKN?=", &mut cells), refused(Refusal::LeftOverBits, 14));
/// # Ok::<(), Refused>(())
/// ```
///
/// [`OverLimit`]: crate::Refusal::OverLimit
/// [`BadWord`]: crate::Refusal::BadWord
/// [`HighByte`]: crate::Refusal::HighByte
/// [`LoneSign`]: crate::Refusal::LoneSign
/// [`StrayByte`]: crate::Refusal::StrayByte
/// [`LeftOverBits`]: crate::Refusal::LeftOverBits
/// [`NoRoom`]: crate::Refusal::NoRoom
pub fn read(line: &[u8], cells: &mut [u32]) -> Result<usize, Refused> {
    // SAFETY: each pointer comes with the length of its slice.
    unsafe { ffi::qalithonda_subject_read(line.as_ptr(), line.len(), cells.as_mut_ptr(), cells.len()) }.answer()
}

/// Reads a line, as [`read`] does, into a vector of exactly its cells.
pub fn read_to_vec(line: &[u8]) -> Result<Vec<u32>, Refused> {
    room::filled(|cells| read(line, cells))
}

/// Writes cells into the first elements of `line`, and gives their count. Each word takes as many cells as fit, and parts
/// no surrogate pair. n cells need at most 78n bytes.
///
/// A refusal leaves `line` as it was: [`OverLimit`], [`Unwritable`] (a cell above 65535), [`NoRoom`].
///
/// ```
/// let mut line = [0; 40];
/// let count = qalithonda::subject::write(&[0x7E, 0x3D], &mut line)?;
/// assert_eq!(&line[..count], b"=?utf-7?Q?+AH4APQ-?=");
/// # Ok::<(), qalithonda::Refused>(())
/// ```
///
/// [`OverLimit`]: crate::Refusal::OverLimit
/// [`Unwritable`]: crate::Refusal::Unwritable
/// [`NoRoom`]: crate::Refusal::NoRoom
pub fn write(cells: &[u32], line: &mut [u8]) -> Result<usize, Refused> {
    // SAFETY: each pointer comes with the length of its slice.
    unsafe { ffi::qalithonda_subject_write(cells.as_ptr(), cells.len(), line.as_mut_ptr(), line.len()) }.answer()
}

/// Writes cells, as [`write()`] does, into a vector of exactly their bytes.
pub fn write_to_vec(cells: &[u32]) -> Result<Vec<u8>, Refused> {
    room::filled(|line| write(cells, line))
}
