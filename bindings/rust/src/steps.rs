use std::iter::FusedIterator;
use std::ops::Range;

use crate::{ffi, Refused};

/// A cell, and where its bytes stand in the text.
///
/// In a run the bytes are from the letter that holds the cell's first bit to the one that holds its last: three letters
/// or four, of which two neighbours may share one. Elsewhere they are the cell's own byte, its pair, the two bytes of
/// `+-` or `&-`, or ESC N and its byte; never a designation.
///
/// ```
/// let text = b"A+ImIDkQ.";
/// let step = qalithonda::utf7::steps(text).nth(2).unwrap();
/// assert_eq!((step.cell, step.bytes.clone()), (0x391, 4..8));
/// assert_eq!(&text[step.bytes], b"IDkQ");
/// ```
#[derive(Clone, Debug, PartialEq, Eq, Hash)]
pub struct Step {
    /// The cell.
    pub cell: u32,
    /// Where its bytes stand in the text: never an empty range, and none that goes past the end.
    pub bytes: Range<usize>,
}

/// Steps through a text, one cell at a time: the cells complete before the first fault, each with its bytes, made by
/// [`utf7::steps`], [`jp2::steps`] or [`mailbox::steps`].
///
/// ```
/// use qalithonda::{utf7, Refusal, Refused, Step};
///
/// let mut steps = utf7::steps(b"A+ImIDkQ~");
/// for Step { cell, bytes } in &mut steps {
///     println!("{cell:04X} in {bytes:?}");
/// }
/// assert_eq!(steps.answer(), Err(Refused { refusal: Refusal::StrayByte, place: 8 }));
/// ```
///
/// [`utf7::steps`]: crate::utf7::steps
/// [`jp2::steps`]: crate::jp2::steps
/// [`mailbox::steps`]: crate::mailbox::steps
#[derive(Clone, Debug)]
pub struct Steps<'a> {
    text: &'a [u8],
    cursor: Cursor,
}

#[derive(Clone, Copy, Debug)]
enum Cursor {
    Utf7(ffi::Utf7Cursor),
    Jp2(ffi::Jp2Cursor),
    Mailbox(ffi::MailboxCursor),
}

enum Stepped {
    Cell(Step),
    Final(Result<usize, Refused>),
}

impl<'a> Steps<'a> {
    pub(crate) fn utf7(text: &'a [u8]) -> Steps<'a> {
        // SAFETY: nothing is lent.
        Steps { text, cursor: Cursor::Utf7(unsafe { ffi::qalithonda_utf7_start() }) }
    }

    pub(crate) fn jp2(text: &'a [u8]) -> Steps<'a> {
        // SAFETY: nothing is lent.
        Steps { text, cursor: Cursor::Jp2(unsafe { ffi::qalithonda_jp2_start() }) }
    }

    pub(crate) fn mailbox(name: &'a [u8]) -> Steps<'a> {
        // SAFETY: nothing is lent.
        Steps { text: name, cursor: Cursor::Mailbox(unsafe { ffi::qalithonda_mailbox_start() }) }
    }

    /// The answer of reading the whole text with room enough: the count of its cells, or the first fault.
    ///
    /// It can be asked at any time, and moves nothing. What was not stepped through yet is looked at for it.
    pub fn answer(&self) -> Result<usize, Refused> {
        let mut rest = self.clone();
        loop {
            if let Stepped::Final(answer) = rest.step() {
                return answer;
            }
        }
    }

    fn step(&mut self) -> Stepped {
        let (text, length) = (self.text.as_ptr(), self.text.len());
        let (given, cell, bytes, answer) = match &mut self.cursor {
            Cursor::Utf7(cursor) => {
                // SAFETY: the pointer comes with the length of its slice, and every cursor is taken.
                let stepped = unsafe { ffi::qalithonda_utf7_step(text, length, *cursor) };
                *cursor = stepped.next;
                (stepped.given, stepped.cell, stepped.begin..stepped.end, stepped.answer)
            }
            Cursor::Jp2(cursor) => {
                // SAFETY: the pointer comes with the length of its slice, and every cursor is taken.
                let stepped = unsafe { ffi::qalithonda_jp2_step(text, length, *cursor) };
                *cursor = stepped.next;
                (stepped.given, stepped.cell, stepped.begin..stepped.end, stepped.answer)
            }
            Cursor::Mailbox(cursor) => {
                // SAFETY: the pointer comes with the length of its slice, and every cursor is taken.
                let stepped = unsafe { ffi::qalithonda_mailbox_step(text, length, *cursor) };
                *cursor = stepped.next;
                (stepped.given, stepped.cell, stepped.begin..stepped.end, stepped.answer)
            }
        };
        if given == 1 {
            Stepped::Cell(Step { cell, bytes })
        } else {
            Stepped::Final(answer.answer())
        }
    }
}

impl Iterator for Steps<'_> {
    type Item = Step;

    fn next(&mut self) -> Option<Step> {
        match self.step() {
            Stepped::Cell(step) => Some(step),
            Stepped::Final(_) => None,
        }
    }
}

// The final answer leaves the cursor where it is, so every later step gives it again.
impl FusedIterator for Steps<'_> {}
