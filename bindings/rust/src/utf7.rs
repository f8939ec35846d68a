//! UTF-7 (RFC 2152). A cell is a UTF-16 unit, 0 to 65535; half a surrogate pair is a unit like any other.
//!
//! ```
//! use qalithonda::utf7::{self, Style};
//!
//! let cells: Vec<u32> = "日本語".encode_utf16().map(u32::from).collect();
//! assert_eq!(utf7::write_to_vec(Style::Body, &cells)?, b"+ZeVnLIqe-");
//! assert_eq!(utf7::read_to_vec(b"+ZeVnLIqe-")?, cells);
//! # Ok::<(), qalithonda::Refused>(())
//! ```

use crate::{compare, ffi, room, Comparison, Refused, RefusedText, Steps};

/// Which characters are written as themselves.
#[derive(Clone, Copy, Debug, PartialEq, Eq, Hash)]
pub enum Style {
    /// Letters, digits, `'(),-./:?`, space, tab, CR and LF.
    Header,
    /// Those, and ``!"#$%&*;<=>@[]^_`{|}``.
    Body,
}

/// Reads a text into the first elements of `cells`, and gives their count. A text of n bytes has at most n cells.
///
/// A refusal leaves `cells` as it was: [`OverLimit`], [`HighByte`], [`LoneSign`], [`StrayByte`], [`LeftOverBits`],
/// [`NoRoom`].
///
/// ```
/// let mut cells = [0; 9];
/// let count = qalithonda::utf7::read(b"A+ImIDkQ.", &mut cells)?;
/// assert_eq!(cells[..count], [0x41, 0x2262, 0x391, 0x2E]);
/// # Ok::<(), qalithonda::Refused>(())
/// ```
///
/// [`OverLimit`]: crate::Refusal::OverLimit
/// [`HighByte`]: crate::Refusal::HighByte
/// [`LoneSign`]: crate::Refusal::LoneSign
/// [`StrayByte`]: crate::Refusal::StrayByte
/// [`LeftOverBits`]: crate::Refusal::LeftOverBits
/// [`NoRoom`]: crate::Refusal::NoRoom
pub fn read(text: &[u8], cells: &mut [u32]) -> Result<usize, Refused> {
    // SAFETY: each pointer comes with the length of its slice.
    unsafe { ffi::qalithonda_utf7_read(text.as_ptr(), text.len(), cells.as_mut_ptr(), cells.len()) }.answer()
}

/// Reads a text, as [`read`] does, into a vector of exactly its cells.
pub fn read_to_vec(text: &[u8]) -> Result<Vec<u32>, Refused> {
    room::filled(|cells| read(text, cells))
}

/// Writes cells into the first elements of `out`, and gives their count. n cells need at most 5n bytes.
///
/// A refusal leaves `out` as it was: [`OverLimit`], [`Unwritable`] (a cell above 65535), [`NoRoom`].
///
/// ```
/// use qalithonda::utf7::{write, Style};
///
/// let mut out = [0; 20];
/// let count = write(Style::Header, &[0x41, 0x3D], &mut out)?;
/// assert_eq!(&out[..count], b"A+AD0-");
/// # Ok::<(), qalithonda::Refused>(())
/// ```
///
/// [`OverLimit`]: crate::Refusal::OverLimit
/// [`Unwritable`]: crate::Refusal::Unwritable
/// [`NoRoom`]: crate::Refusal::NoRoom
pub fn write(style: Style, cells: &[u32], out: &mut [u8]) -> Result<usize, Refused> {
    let write = match style {
        Style::Header => ffi::qalithonda_utf7_header_write,
        Style::Body => ffi::qalithonda_utf7_body_write,
    };
    // SAFETY: each pointer comes with the length of its slice.
    unsafe { write(cells.as_ptr(), cells.len(), out.as_mut_ptr(), out.len()) }.answer()
}

/// Writes cells, as [`write()`] does, into a vector of exactly their bytes.
pub fn write_to_vec(style: Style, cells: &[u32]) -> Result<Vec<u8>, Refused> {
    room::filled(|out| write(style, cells, out))
}

/// Steps through a text, one cell at a time, each with where its bytes stand.
///
/// ```
/// use qalithonda::Step;
///
/// let mut steps = qalithonda::utf7::steps(b"A+ImIDkQ.");
/// assert_eq!(steps.next(), Some(Step { cell: 0x41, bytes: 0..1 }));
/// assert_eq!(steps.next(), Some(Step { cell: 0x2262, bytes: 2..5 }));
/// assert_eq!(steps.answer(), Ok(4));
/// ```
pub fn steps(text: &[u8]) -> Steps<'_> {
    Steps::utf7(text)
}

/// Compares two texts: whether they read as the same cells, however each spells them, or where they part. Both are read
/// to their ends: a refusal of the first comes before all else, and one of the second before what was found.
///
/// ```
/// use qalithonda::{utf7, Comparison};
///
/// assert_eq!(utf7::compare(b"A+ImIDkQ.", b"A+ImI-+A5E-."), Ok(Comparison::Same { count: 4 }));
/// assert_eq!(utf7::compare(b"Hi!", b"Hi+ADs-"), Ok(Comparison::Part { index: 2, first: 2, second: 3 }));
/// ```
pub fn compare(first: &[u8], second: &[u8]) -> Result<Comparison, RefusedText> {
    compare::compare(ffi::qalithonda_utf7_compare, first, second)
}
