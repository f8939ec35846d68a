use crate::room::{self, buffer};
use crate::{ffi, Refused, LIMIT};

/// What a page is read and written as.
#[derive(Clone, Copy, Debug, PartialEq, Eq, Hash)]
pub enum Kind {
    /// UTF-7, written in header style.
    Utf7Header,
    /// UTF-7, written in body style.
    Utf7Body,
    /// JP-2.
    Jp2,
}

impl Kind {
    /// Its number in C.
    pub(crate) fn number(self) -> u32 {
        self as u32
    }
}

/// A letter that can be edited, undone, redone and saved, and kept in a file to go on with another day.
///
/// It owns its text, its history and the bytes that arrived. A refused call changes nothing.
///
/// ```
/// use qalithonda::{Kind, Page, Refusal};
///
/// let mut page = Page::open(Kind::Utf7Body, b"A+ImIDkQ.", 100, 100)?;
/// page.replace(1, 1, &[0x3D])?;
/// assert_eq!(page.text(), [0x41, 0x3D, 0x391, 0x2E]);
/// assert!(!page.is_unchanged());
/// assert_eq!(page.save_to_vec()?, b"A=+A5E-.");
/// assert!(page.is_unchanged());
/// page.undo()?;
/// assert_eq!(page.save_to_vec()?, b"A+ImIDkQ.");
/// assert_eq!(page.undo().unwrap_err().refusal, Refusal::NothingLeft);
/// # Ok::<(), qalithonda::Refused>(())
/// ```
#[derive(Clone, Debug)]
pub struct Page {
    kind: Kind,
    numbers: ffi::Page,
    text: Vec<u32>,
    history: Vec<u32>,
    arrived: Vec<u8>,
}

impl Page {
    /// Opens a page on the bytes of a letter as they arrived.
    ///
    /// `text_room` is the most cells that the text can grow to, `history_room` the words for steps: a step takes 3, and
    /// one for each cell that it removes or adds. Neither may be over [`LIMIT`].
    ///
    /// Refused with [`OverLimit`], with the faults of reading, or with [`NoRoom`] if `text_room` is too small.
    ///
    /// [`OverLimit`]: crate::Refusal::OverLimit
    /// [`NoRoom`]: crate::Refusal::NoRoom
    pub fn open(
        kind: Kind,
        arrived: impl Into<Vec<u8>>,
        text_room: usize,
        history_room: usize,
    ) -> Result<Page, Refused> {
        let open = match kind {
            Kind::Utf7Header => ffi::qalithonda_utf7_header_open,
            Kind::Utf7Body => ffi::qalithonda_utf7_body_open,
            Kind::Jp2 => ffi::qalithonda_jp2_open,
        };
        let arrived = arrived.into();
        let (mut text, mut history) = (buffer(text_room), buffer(history_room));
        // SAFETY: each pointer comes with the length of its vector.
        let edited = unsafe {
            open(arrived.as_ptr(), arrived.len(), text.as_mut_ptr(), text.len(), history.as_mut_ptr(), history.len())
        };
        edited.answer.answer()?;
        Ok(Page { kind, numbers: edited.page, text, history, arrived })
    }

    /// Reads a page that was [kept](Page::keep): it goes on as it was then, undo and redo too. The rooms are those of
    /// [`open`](Page::open), and need not be as they were.
    ///
    /// Refused with [`OverLimit`], with [`BadPageFile`], with [`NoRoom`] if `text_room`, or else `history_room`, is too
    /// small, with [`Unsound`], also if the text was longer than `text_room` when it was opened or between two steps,
    /// or with [`NotTheText`]. Of a file that [`keep`](Page::keep) gave, only with [`OverLimit`], or for too little
    /// room.
    ///
    /// A file that was made in another way may say what no editing leads to. If it is accepted, the page is sound, but
    /// saving and keeping may be refused with [`NotTheText`] or [`Unwritable`].
    ///
    /// [`OverLimit`]: crate::Refusal::OverLimit
    /// [`BadPageFile`]: crate::Refusal::BadPageFile
    /// [`NoRoom`]: crate::Refusal::NoRoom
    /// [`Unsound`]: crate::Refusal::Unsound
    /// [`NotTheText`]: crate::Refusal::NotTheText
    /// [`Unwritable`]: crate::Refusal::Unwritable
    pub fn read(file: &[u8], text_room: usize, history_room: usize) -> Result<Page, Refused> {
        // A file has two digits for each arrived byte.
        let mut arrived = vec![0; LIMIT.min(file.len() / 2)];
        let (mut text, mut history) = (buffer(text_room), buffer(history_room));
        // SAFETY: each pointer comes with the length of its slice or vector.
        let edited = unsafe {
            ffi::qalithonda_page_read(
                file.as_ptr(),
                file.len(),
                arrived.as_mut_ptr(),
                arrived.len(),
                text.as_mut_ptr(),
                text.len(),
                history.as_mut_ptr(),
                history.len(),
            )
        };
        arrived.truncate(edited.answer.answer()?);
        let kind = [Kind::Utf7Header, Kind::Utf7Body, Kind::Jp2][edited.page.kind as usize];
        Ok(Page { kind, numbers: edited.page, text, history, arrived })
    }

    /// Puts `cells` in the place of the `count` cells from `place` on, and gives the new length. Steps that could be
    /// redone are dropped, and the mark with them if it is among them.
    ///
    /// Refused with [`OverLimit`], [`BeyondLength`], [`Unwritable`] (an index in `cells`), [`NoRoom`] (the new length)
    /// or [`HistoryFull`].
    ///
    /// [`OverLimit`]: crate::Refusal::OverLimit
    /// [`BeyondLength`]: crate::Refusal::BeyondLength
    /// [`Unwritable`]: crate::Refusal::Unwritable
    /// [`NoRoom`]: crate::Refusal::NoRoom
    /// [`HistoryFull`]: crate::Refusal::HistoryFull
    pub fn replace(&mut self, place: usize, count: usize, cells: &[u32]) -> Result<usize, Refused> {
        // SAFETY: each pointer comes with the length of its slice or vector.
        let edited = unsafe {
            ffi::qalithonda_replace(
                self.numbers,
                place,
                count,
                cells.as_ptr(),
                cells.len(),
                self.text.as_mut_ptr(),
                self.text.len(),
                self.history.as_mut_ptr(),
                self.history.len(),
            )
        };
        self.take(edited)
    }

    /// Takes the last standing step back, and gives the new length. Refused with [`NothingLeft`].
    ///
    /// [`NothingLeft`]: crate::Refusal::NothingLeft
    pub fn undo(&mut self) -> Result<usize, Refused> {
        let (text, history) = (&mut self.text, &self.history);
        // SAFETY: each pointer comes with the length of its vector.
        let edited = unsafe {
            ffi::qalithonda_undo(self.numbers, text.as_mut_ptr(), text.len(), history.as_ptr(), history.len())
        };
        self.take(edited)
    }

    /// Does the next undone step again, and gives the new length. Refused with [`NothingLeft`].
    ///
    /// [`NothingLeft`]: crate::Refusal::NothingLeft
    pub fn redo(&mut self) -> Result<usize, Refused> {
        let (text, history) = (&mut self.text, &self.history);
        // SAFETY: each pointer comes with the length of its vector.
        let edited = unsafe {
            ffi::qalithonda_redo(self.numbers, text.as_mut_ptr(), text.len(), history.as_ptr(), history.len())
        };
        self.take(edited)
    }

    /// Fills the first elements of `out` with the letter's bytes, and gives their count: the bytes that arrived if no
    /// step stands, otherwise the text written in the page's kind. The page counts as saved from then on
    /// ([`is_unchanged`](Page::is_unchanged)); bytes that are still to be written to a file, which may fail, are better
    /// saved by [`save_with`](Page::save_with).
    ///
    /// Refused with [`NoRoom`], which leaves `out` and the page as they were.
    ///
    /// [`NoRoom`]: crate::Refusal::NoRoom
    pub fn save(&mut self, out: &mut [u8]) -> Result<usize, Refused> {
        let edited = self.saved_in(out);
        self.take(edited)
    }

    /// The letter's bytes, as [`save`](Page::save) gives them, in a vector of exactly their number.
    pub fn save_to_vec(&mut self) -> Result<Vec<u8>, Refused> {
        self.save_with(Ok)
    }

    /// Gives the letter's bytes to `put`, which writes them to where they belong, and gives what it gives. Only if that
    /// is `Ok` the page counts as saved; otherwise it stays as it was, and so does what was saved before.
    ///
    /// ```
    /// use qalithonda::{Kind, Page};
    /// use std::{error::Error, fs};
    ///
    /// let mut page = Page::open(Kind::Utf7Body, b"A+ImIDkQ.", 100, 100)?;
    /// page.replace(1, 1, &[0x3D])?;
    /// let save = |page: &mut Page, file| page.save_with(|bytes| Ok::<_, Box<dyn Error>>(fs::write(file, bytes)?));
    /// assert!(save(&mut page, "/nowhere/letter").is_err());
    /// assert!(!page.is_unchanged());
    /// save(&mut page, "/dev/null")?;
    /// assert!(page.is_unchanged());
    /// # Ok::<(), Box<dyn Error>>(())
    /// ```
    pub fn save_with<T, E: From<Refused>>(&mut self, put: impl FnOnce(Vec<u8>) -> Result<T, E>) -> Result<T, E> {
        let mut saved = self.numbers;
        let bytes = room::filled(|out| {
            let edited = self.saved_in(out);
            saved = edited.page;
            edited.answer.answer()
        })?;
        let given = put(bytes)?;
        self.numbers = saved;
        Ok(given)
    }

    /// Folds the oldest `steps` standing steps into one, which makes room in the history, and gives the words now used.
    /// The text stays as it is, and the later steps, undone ones too, follow unchanged; what was folded is then undone
    /// and redone at once. The new step takes 3 words, and one for each cell of the text as it was opened and of the
    /// text as it was after those steps.
    ///
    /// A mark ([`saved`](Page::saved)) at the end of the fold or later moves along, and one at 0 stays; one between is
    /// lost, since no step leads there any more.
    ///
    /// Refused with [`BeyondLength`] (fewer than two steps, or more than stand), or with [`NoGain`].
    ///
    /// ```
    /// use qalithonda::{Kind, Page, Refusal};
    ///
    /// let mut page = Page::open(Kind::Utf7Body, b"Hi", 100, 16)?;
    /// for cell in [0x21, 0x3F, 0x21] {
    ///     page.replace(2, page.length() - 2, &[cell])?;
    /// }
    /// assert_eq!(page.used(), 14);
    /// assert_eq!(page.replace(0, 0, &[]).unwrap_err().refusal, Refusal::HistoryFull);
    /// assert_eq!(page.squeeze(2)?, 13);
    /// page.replace(0, 0, &[])?;
    /// # Ok::<(), qalithonda::Refused>(())
    /// ```
    ///
    /// [`BeyondLength`]: crate::Refusal::BeyondLength
    /// [`NoGain`]: crate::Refusal::NoGain
    pub fn squeeze(&mut self, steps: usize) -> Result<usize, Refused> {
        let (text, history) = (&self.text, &mut self.history);
        // Where there is a gain, the new step is shorter than those that stand.
        let mut work = vec![0; self.numbers.done];
        // SAFETY: each pointer comes with the length of its vector.
        let edited = unsafe {
            ffi::qalithonda_squeeze(
                self.numbers,
                steps,
                text.as_ptr(),
                text.len(),
                history.as_mut_ptr(),
                history.len(),
                work.as_mut_ptr(),
                work.len(),
            )
        };
        self.take(edited)
    }

    /// The page's file, to [read](Page::read) it back another day: the whole page, with its steps, undone ones too, its
    /// mark and the bytes that arrived. It is the same bytes on every kind of machine, and one page has one file.
    /// Keeping changes nothing: it is not saving.
    ///
    /// ```
    /// use qalithonda::{Kind, Page};
    ///
    /// let mut page = Page::open(Kind::Utf7Body, b"A+ImIDkQ.", 100, 100)?;
    /// page.replace(1, 1, &[0x3D])?;
    /// let file = page.keep()?;
    ///
    /// let mut page = Page::read(&file, 100, 100)?;
    /// assert_eq!(page.text(), [0x41, 0x3D, 0x391, 0x2E]);
    /// page.undo()?;
    /// assert_eq!(page.save_to_vec()?, b"A+ImIDkQ.");
    /// # Ok::<(), qalithonda::Refused>(())
    /// ```
    pub fn keep(&self) -> Result<Vec<u8>, Refused> {
        let (text, history, arrived) = (&self.text, &self.history, &self.arrived);
        room::filled(|out: &mut [u8]| {
            // SAFETY: each pointer comes with the length of its slice or vector.
            let answer = unsafe {
                ffi::qalithonda_page_keep(
                    self.numbers,
                    text.as_ptr(),
                    text.len(),
                    history.as_ptr(),
                    history.len(),
                    arrived.as_ptr(),
                    arrived.len(),
                    out.as_mut_ptr(),
                    out.len(),
                )
            };
            answer.answer()
        })
    }

    /// Whether it is as it was saved last, or opened if it was not saved since. Steps that were undone and done again
    /// make no difference; the same cells put by another step do. Good to ask before a page is dropped.
    pub fn is_unchanged(&self) -> bool {
        let (text, history) = (&self.text, &self.history);
        // SAFETY: each pointer comes with the length of its vector.
        let asked = unsafe {
            ffi::qalithonda_unchanged(self.numbers, text.as_ptr(), text.len(), history.as_ptr(), history.len())
        };
        debug_assert_eq!(asked.answer.answer(), Ok(0), "a page is sound");
        asked.unchanged == 1
    }

    /// What it is read and written as.
    pub fn kind(&self) -> Kind {
        self.kind
    }

    /// The bytes that it was opened on.
    pub fn arrived(&self) -> &[u8] {
        &self.arrived
    }

    /// Its cells.
    pub fn text(&self) -> &[u32] {
        &self.text[..self.numbers.length]
    }

    /// The records of its steps, one after another: place, count removed, count added, the removed cells, the added
    /// cells. The first [`done`](Page::done) words are of steps that stand, the others of steps that can be redone.
    pub fn history(&self) -> &[u32] {
        &self.history[..self.numbers.used]
    }

    /// How many cells it was opened with.
    pub fn opening(&self) -> usize {
        self.numbers.opening
    }

    /// How many cells it has.
    pub fn length(&self) -> usize {
        self.numbers.length
    }

    /// How many words of history hold steps. There is one to redo if this is more than [`done`](Page::done).
    pub fn used(&self) -> usize {
        self.numbers.used
    }

    /// How many words of history hold steps that stand. There is one to undo if this is not 0.
    pub fn done(&self) -> usize {
        self.numbers.done
    }

    /// The mark: [`done`](Page::done) when it was saved last, or 0 if it was only opened, moved along when steps before
    /// it are [squeezed](Page::squeeze); none if a replacement dropped the steps that led there, or a squeeze folded
    /// them together with later ones. It [is unchanged](Page::is_unchanged) if this is what is done.
    pub fn saved(&self) -> Option<usize> {
        (self.numbers.saved != ffi::NEVER_SAVED).then_some(self.numbers.saved)
    }

    /// The letter's bytes, and the page with its mark set, which is not kept yet.
    fn saved_in(&self, out: &mut [u8]) -> ffi::Edited {
        // SAFETY: each pointer comes with the length of its slice or vector.
        unsafe {
            ffi::qalithonda_save(
                self.numbers,
                self.text.as_ptr(),
                self.text.len(),
                self.history.as_ptr(),
                self.history.len(),
                self.arrived.as_ptr(),
                self.arrived.len(),
                out.as_mut_ptr(),
                out.len(),
            )
        }
    }

    /// A refused call gives the page back as it was.
    fn take(&mut self, edited: ffi::Edited) -> Result<usize, Refused> {
        self.numbers = edited.page;
        edited.answer.answer()
    }
}
