//! Mailbox names of IMAP: the modified UTF-7 of RFC 3501, section 5.1.3. A cell is a UTF-16 unit, 0 to 65535; half a
//! surrogate pair is a unit like any other.
//!
//! A name has one spelling only: an accepted name, written again from its cells, is the same bytes, and two names with
//! the same cells are the same name.
//!
//! ```
//! use qalithonda::mailbox;
//!
//! let cells: Vec<u32> = "日本語".encode_utf16().map(u32::from).collect();
//! assert_eq!(mailbox::write_to_vec(&cells)?, b"&ZeVnLIqe-");
//! assert_eq!(mailbox::read_to_vec(b"&ZeVnLIqe-")?, cells);
//! # Ok::<(), qalithonda::Refused>(())
//! ```

use crate::{compare, ffi, room, Comparison, Refused, RefusedText, Steps};

/// Reads a name into the first elements of `cells`, and gives their count. A name of n bytes has at most n cells.
///
/// A refusal leaves `cells` as it was: [`OverLimit`], [`HighByte`], [`LoneSign`], [`StrayByte`], [`LeftOverBits`],
/// [`CutShort`], [`NeedlessShift`], [`NoRoom`].
///
/// ```
/// use qalithonda::{mailbox, Refusal, Refused};
///
/// let mut cells = [0; 9];
/// let count = mailbox::read(b"R&-D", &mut cells)?;
/// assert_eq!(cells[..count], [0x52, 0x26, 0x44]);
///
/// // The ampersand needs no run.
/// let refused = mailbox::read(b"R&ACY-D", &mut cells).unwrap_err();
/// assert_eq!(refused, Refused { refusal: Refusal::NeedlessShift, place: 4 });
/// # Ok::<(), Refused>(())
/// ```
///
/// [`OverLimit`]: crate::Refusal::OverLimit
/// [`HighByte`]: crate::Refusal::HighByte
/// [`LoneSign`]: crate::Refusal::LoneSign
/// [`StrayByte`]: crate::Refusal::StrayByte
/// [`LeftOverBits`]: crate::Refusal::LeftOverBits
/// [`CutShort`]: crate::Refusal::CutShort
/// [`NeedlessShift`]: crate::Refusal::NeedlessShift
/// [`NoRoom`]: crate::Refusal::NoRoom
pub fn read(name: &[u8], cells: &mut [u32]) -> Result<usize, Refused> {
    // SAFETY: each pointer comes with the length of its slice.
    unsafe { ffi::qalithonda_mailbox_read(name.as_ptr(), name.len(), cells.as_mut_ptr(), cells.len()) }.answer()
}

/// Reads a name, as [`read`] does, into a vector of exactly its cells.
pub fn read_to_vec(name: &[u8]) -> Result<Vec<u32>, Refused> {
    room::filled(|cells| read(name, cells))
}

/// Writes cells into the first elements of `out`, and gives their count. n cells need at most 5n bytes.
///
/// A refusal leaves `out` as it was: [`OverLimit`], [`Unwritable`] (a cell above 65535), [`NoRoom`].
///
/// ```
/// let mut out = [0; 20];
/// let count = qalithonda::mailbox::write(&[0x7E, 0x26, 0x53F0, 0x5317], &mut out)?;
/// assert_eq!(&out[..count], b"~&-&U,BTFw-");
/// # Ok::<(), qalithonda::Refused>(())
/// ```
///
/// [`OverLimit`]: crate::Refusal::OverLimit
/// [`Unwritable`]: crate::Refusal::Unwritable
/// [`NoRoom`]: crate::Refusal::NoRoom
pub fn write(cells: &[u32], out: &mut [u8]) -> Result<usize, Refused> {
    // SAFETY: each pointer comes with the length of its slice.
    unsafe { ffi::qalithonda_mailbox_write(cells.as_ptr(), cells.len(), out.as_mut_ptr(), out.len()) }.answer()
}

/// Writes cells, as [`write()`] does, into a vector of exactly their bytes.
pub fn write_to_vec(cells: &[u32]) -> Result<Vec<u8>, Refused> {
    room::filled(|out| write(cells, out))
}

/// Steps through a name, one cell at a time, each with where its bytes stand.
///
/// ```
/// use qalithonda::Step;
///
/// let mut steps = qalithonda::mailbox::steps(b"a&AKM-&AKM-");
/// let found: Vec<Step> = steps.by_ref().collect();
/// assert_eq!(found, [Step { cell: 0x61, bytes: 0..1 }, Step { cell: 0xA3, bytes: 2..5 }]);
/// assert_eq!(steps.answer().unwrap_err().to_string(), "refused with 17: there is a needless shift, noticed at 7");
/// ```
pub fn steps(name: &[u8]) -> Steps<'_> {
    Steps::mailbox(name)
}

/// Compares two names, as [`utf7::compare`](crate::utf7::compare) does.
pub fn compare(first: &[u8], second: &[u8]) -> Result<Comparison, RefusedText> {
    compare::compare(ffi::qalithonda_mailbox_compare, first, second)
}
