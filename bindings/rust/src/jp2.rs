//! ISO-2022-JP-2 (RFC 1554). A cell is its set's registration number times 65536, plus the code as sent.
//!
//! ```
//! use qalithonda::jp2;
//!
//! let cells = jp2::read_to_vec(b"\x1b$B$\"\x1b(B")?;
//! assert_eq!(cells, [87 << 16 | 0x2422]);
//! assert_eq!(jp2::write_to_vec(&cells)?, b"\x1b$B$\"\x1b(B");
//! # Ok::<(), qalithonda::Refused>(())
//! ```

use crate::{compare, ffi, room, Comparison, Refused, RefusedText, Steps};

/// The registration numbers of the nine sets, in the order of [`tally`]'s counts: ASCII, JIS X 0201-Roman,
/// JIS X 0208-1978, GB2312-1980, JIS X 0208-1983, ISO8859-1, ISO8859-7, KSC5601-1987 and JIS X 0212-1990.
pub const SETS: [u32; 9] = [6, 14, 42, 58, 87, 100, 126, 149, 159];

/// The most bytes that [`plain_read`] takes.
pub const PLAIN_LIMIT: usize = 512;

/// Reads a text into the first elements of `cells`, and gives their count. A text of n bytes has at most n cells.
///
/// A refusal leaves `cells` as it was: [`OverLimit`], [`HighByte`], [`StrayByte`], [`UnknownEscape`], [`EmptyG2`],
/// [`CutShort`], [`NotAscii`], [`NoRoom`].
///
/// ```
/// let mut cells = [0; 8];
/// let count = qalithonda::jp2::read(b"\x1b$B$\"\x1b(B", &mut cells)?;
/// assert_eq!(cells[..count], [0x572422]);
/// # Ok::<(), qalithonda::Refused>(())
/// ```
///
/// [`OverLimit`]: crate::Refusal::OverLimit
/// [`HighByte`]: crate::Refusal::HighByte
/// [`StrayByte`]: crate::Refusal::StrayByte
/// [`UnknownEscape`]: crate::Refusal::UnknownEscape
/// [`EmptyG2`]: crate::Refusal::EmptyG2
/// [`CutShort`]: crate::Refusal::CutShort
/// [`NotAscii`]: crate::Refusal::NotAscii
/// [`NoRoom`]: crate::Refusal::NoRoom
pub fn read(text: &[u8], cells: &mut [u32]) -> Result<usize, Refused> {
    // SAFETY: each pointer comes with the length of its slice.
    unsafe { ffi::qalithonda_jp2_read(text.as_ptr(), text.len(), cells.as_mut_ptr(), cells.len()) }.answer()
}

/// Reads a text, as [`read`] does, into a vector of exactly its cells.
pub fn read_to_vec(text: &[u8]) -> Result<Vec<u32>, Refused> {
    room::filled(|cells| read(text, cells))
}

/// Reads a text of at most [`PLAIN_LIMIT`] bytes, as [`read`] does, by a second reader that was written plainly from
/// RFC 1554's formal syntax: for tests. A longer text is refused with `OverLimit` and [`PLAIN_LIMIT`]; on any other it
/// gives what [`read`] gives.
///
/// ```
/// use qalithonda::jp2;
///
/// let (mut cells, mut plain) = ([0; 8], [0; 8]);
/// let text = b"\x1b$B$\"\x1b(B";
/// assert_eq!(jp2::plain_read(text, &mut plain), jp2::read(text, &mut cells));
/// assert_eq!(plain, cells);
/// ```
pub fn plain_read(text: &[u8], cells: &mut [u32]) -> Result<usize, Refused> {
    // SAFETY: each pointer comes with the length of its slice.
    unsafe { ffi::qalithonda_jp2_plain_read(text.as_ptr(), text.len(), cells.as_mut_ptr(), cells.len()) }.answer()
}

/// Reads a text, as [`plain_read`] does, into a vector of exactly its cells.
pub fn plain_read_to_vec(text: &[u8]) -> Result<Vec<u32>, Refused> {
    room::filled(|cells| plain_read(text, cells))
}

/// Writes cells into the first elements of `out`, and gives their count. n cells need at most 6n + 3 bytes.
///
/// A refusal leaves `out` as it was: [`OverLimit`], [`Unwritable`] (not a cell of one of the nine sets), [`NoRoom`].
///
/// ```
/// let mut out = [0; 9];
/// let count = qalithonda::jp2::write(&[0x952121], &mut out)?;
/// assert_eq!(&out[..count], b"\x1b$(C!!\x1b(B");
/// # Ok::<(), qalithonda::Refused>(())
/// ```
///
/// [`OverLimit`]: crate::Refusal::OverLimit
/// [`Unwritable`]: crate::Refusal::Unwritable
/// [`NoRoom`]: crate::Refusal::NoRoom
pub fn write(cells: &[u32], out: &mut [u8]) -> Result<usize, Refused> {
    // SAFETY: each pointer comes with the length of its slice.
    unsafe { ffi::qalithonda_jp2_write(cells.as_ptr(), cells.len(), out.as_mut_ptr(), out.len()) }.answer()
}

/// Writes cells, as [`write()`] does, into a vector of exactly their bytes.
pub fn write_to_vec(cells: &[u32]) -> Result<Vec<u8>, Refused> {
    room::filled(|out| write(cells, out))
}

/// Counts the cells of each set, in the order of [`SETS`]. Refused as [`write()`] is, but for room.
///
/// ```
/// use qalithonda::jp2;
///
/// let counts = jp2::tally(&jp2::read_to_vec(b"a b\x1b$B$\"\x1b(B")?)?;
/// assert_eq!(counts, [3, 0, 0, 0, 1, 0, 0, 0, 0]);
/// # Ok::<(), qalithonda::Refused>(())
/// ```
pub fn tally(cells: &[u32]) -> Result<[u32; 9], Refused> {
    let mut counts = [0; 9];
    // SAFETY: the pointer comes with the length of its slice, and the other is that of nine counts.
    unsafe { ffi::qalithonda_jp2_tally(cells.as_ptr(), cells.len(), &mut counts) }.answer()?;
    Ok(counts)
}

/// Steps through a text, one cell at a time, each with where its bytes stand.
///
/// ```
/// use qalithonda::Step;
///
/// let mut steps = qalithonda::jp2::steps(b"a\x1b$B$\"");
/// let found: Vec<Step> = steps.by_ref().collect();
/// assert_eq!(found, [Step { cell: 0x060061, bytes: 0..1 }, Step { cell: 0x572422, bytes: 4..6 }]);
/// assert_eq!(steps.answer().unwrap_err().to_string(), "refused with 8: the text ends at 6 with G0 not ASCII");
/// ```
pub fn steps(text: &[u8]) -> Steps<'_> {
    Steps::jp2(text)
}

/// Compares two texts, as [`utf7::compare`](crate::utf7::compare) does.
pub fn compare(first: &[u8], second: &[u8]) -> Result<Comparison, RefusedText> {
    compare::compare(ffi::qalithonda_jp2_compare, first, second)
}
