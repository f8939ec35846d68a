use crate::room::{self, buffer};
use crate::{ffi, Kind, Refused};

/// A letter that a bench is opened on.
#[derive(Clone, Copy, Debug)]
pub struct Letter<'a> {
    /// What it is read and written as.
    pub kind: Kind,
    /// Its bytes as they arrived.
    pub arrived: &'a [u8],
    /// The most cells that its text can grow to.
    pub text_room: usize,
}

/// Two letters that are edited, undone, redone and saved each on its own bench, 0 or 1, with one history between them.
///
/// What one bench does changes nothing of the other; only room is shared. A refused call changes nothing. A bench that
/// is neither 0 nor 1 is refused with [`NoSuchBench`](crate::Refusal::NoSuchBench). They own both texts, the history
/// and the bytes that arrived.
///
/// ```
/// use qalithonda::{Benches, Kind, Letter, Refusal};
///
/// let master = Letter { kind: Kind::Utf7Body, arrived: b"A+ImIDkQ.", text_room: 100 };
/// let apprentice = Letter { kind: Kind::Jp2, arrived: b"Hi", text_room: 100 };
/// let mut benches = Benches::open([master, apprentice], 100)?;
///
/// benches.replace(0, 1, 1, &[0x3D])?;
/// benches.replace(1, 2, 0, &[0x060021])?;
/// assert_eq!(benches.history(), [0, 1, 1, 1, 0x2262, 0x3D, 1, 2, 0, 1, 0x060021]);
///
/// // Bench 0 undoes to the bottom; bench 1 goes on.
/// benches.undo(0)?;
/// assert_eq!(benches.undo(0).unwrap_err().refusal, Refusal::NothingLeft);
/// benches.replace(1, 3, 0, &[0x060021])?;
/// assert_eq!(benches.save_to_vec(0)?, b"A+ImIDkQ.");
/// assert_eq!(benches.save_to_vec(1)?, b"Hi!!");
/// # Ok::<(), qalithonda::Refused>(())
/// ```
#[derive(Clone, Debug)]
pub struct Benches {
    kinds: [Kind; 2],
    numbers: ffi::Benches,
    texts: [Vec<u32>; 2],
    history: Vec<u32>,
    arrived: [Vec<u8>; 2],
}

/// One of two [`Benches`], as it stands.
#[derive(Clone, Copy, Debug, PartialEq, Eq)]
#[non_exhaustive]
pub struct Bench<'a> {
    /// What its letter is read and written as.
    pub kind: Kind,
    /// The bytes that it was opened on.
    pub arrived: &'a [u8],
    /// Its cells.
    pub text: &'a [u32],
    /// How many cells it was opened with.
    pub opening: usize,
    /// How many of its steps stand. There is one to undo if this is not 0.
    pub standing: usize,
    /// The mark: `standing` when it was saved last, or 0 if it was only opened; none if a replacement dropped the steps
    /// that led there.
    pub saved: Option<usize>,
}

/// A call that takes a step back, or does it again.
type Move = unsafe extern "C" fn(
    ffi::Benches,
    usize,
    *mut u32,
    usize,
    *mut u32,
    usize,
    *const u32,
    usize,
) -> ffi::BenchesEdited;

impl Benches {
    /// Opens both benches, the first letter on bench 0 and the second on bench 1.
    ///
    /// `history_room` are the words for steps of both: a step takes 4, and one for each cell that it removes or adds.
    /// No room may be over [`LIMIT`](crate::LIMIT).
    ///
    /// Refused as opening a [`Page`](crate::Page) on each is, the first letter's refusals before the second's.
    pub fn open(letters: [Letter<'_>; 2], history_room: usize) -> Result<Benches, Refused> {
        let kinds = letters.map(|letter| letter.kind);
        let arrived = letters.map(|letter| letter.arrived.to_vec());
        let mut texts = letters.map(|letter| buffer(letter.text_room));
        let mut history = buffer(history_room);
        let [text0, text1] = &mut texts;
        // SAFETY: each pointer comes with the length of its vector.
        let edited = unsafe {
            ffi::qalithonda_benches_open(
                kinds[0].number(),
                kinds[1].number(),
                arrived[0].as_ptr(),
                arrived[0].len(),
                arrived[1].as_ptr(),
                arrived[1].len(),
                text0.as_mut_ptr(),
                text0.len(),
                text1.as_mut_ptr(),
                text1.len(),
                history.as_mut_ptr(),
                history.len(),
            )
        };
        edited.answer.answer()?;
        Ok(Benches { kinds, numbers: edited.benches, texts, history, arrived })
    }

    /// Puts `cells` in the place of the `count` cells from `place` on in the text of this bench, and gives its new
    /// length. Steps that this bench could redo are dropped, and its mark with them if it is among them; the other's
    /// stay.
    ///
    /// Refused with [`OverLimit`], [`NoSuchBench`], [`BeyondLength`], [`Unwritable`] (an index in `cells`), [`NoRoom`]
    /// (the new length) or [`HistoryFull`].
    ///
    /// [`OverLimit`]: crate::Refusal::OverLimit
    /// [`NoSuchBench`]: crate::Refusal::NoSuchBench
    /// [`BeyondLength`]: crate::Refusal::BeyondLength
    /// [`Unwritable`]: crate::Refusal::Unwritable
    /// [`NoRoom`]: crate::Refusal::NoRoom
    /// [`HistoryFull`]: crate::Refusal::HistoryFull
    pub fn replace(&mut self, bench: usize, place: usize, count: usize, cells: &[u32]) -> Result<usize, Refused> {
        let [text0, text1] = &mut self.texts;
        // SAFETY: each pointer comes with the length of its slice or vector.
        let edited = unsafe {
            ffi::qalithonda_benches_replace(
                self.numbers,
                bench,
                place,
                count,
                cells.as_ptr(),
                cells.len(),
                text0.as_mut_ptr(),
                text0.len(),
                text1.as_mut_ptr(),
                text1.len(),
                self.history.as_mut_ptr(),
                self.history.len(),
            )
        };
        self.take(edited)
    }

    /// Takes this bench's last standing step back, and gives its new length. Refused with [`NoSuchBench`] or
    /// [`NothingLeft`].
    ///
    /// [`NoSuchBench`]: crate::Refusal::NoSuchBench
    /// [`NothingLeft`]: crate::Refusal::NothingLeft
    pub fn undo(&mut self, bench: usize) -> Result<usize, Refused> {
        self.step(ffi::qalithonda_benches_undo, bench)
    }

    /// Does this bench's next undone step again, and gives its new length. Refused with [`NoSuchBench`] or
    /// [`NothingLeft`].
    ///
    /// [`NoSuchBench`]: crate::Refusal::NoSuchBench
    /// [`NothingLeft`]: crate::Refusal::NothingLeft
    pub fn redo(&mut self, bench: usize) -> Result<usize, Refused> {
        self.step(ffi::qalithonda_benches_redo, bench)
    }

    /// Fills the first elements of `out` with the bytes of this bench's letter, and gives their count: the bytes that
    /// arrived if none of its steps stands, otherwise its text written in its kind. The bench counts as saved from then
    /// on ([`is_unchanged`](Benches::is_unchanged)); bytes that are still to be written to a file, which may fail, are
    /// better saved by [`save_with`](Benches::save_with).
    ///
    /// Refused with [`NoSuchBench`], or with [`NoRoom`], which leaves `out` and the benches as they were.
    ///
    /// [`NoSuchBench`]: crate::Refusal::NoSuchBench
    /// [`NoRoom`]: crate::Refusal::NoRoom
    pub fn save(&mut self, bench: usize, out: &mut [u8]) -> Result<usize, Refused> {
        let edited = self.saved_in(bench, out);
        self.take(edited)
    }

    /// The bytes of this bench's letter, as [`save`](Benches::save) gives them, in a vector of exactly their number.
    pub fn save_to_vec(&mut self, bench: usize) -> Result<Vec<u8>, Refused> {
        self.save_with(bench, Ok)
    }

    /// Gives the bytes of this bench's letter to `put`, which writes them to where they belong, and gives what it
    /// gives. Only if that is `Ok` the bench counts as saved; otherwise it stays as it was, and so does what was saved
    /// before.
    pub fn save_with<T, E: From<Refused>>(
        &mut self,
        bench: usize,
        put: impl FnOnce(Vec<u8>) -> Result<T, E>,
    ) -> Result<T, E> {
        let mut saved = self.numbers;
        let bytes = room::filled(|out| {
            let edited = self.saved_in(bench, out);
            saved = edited.benches;
            edited.answer.answer()
        })?;
        let given = put(bytes)?;
        self.numbers = saved;
        Ok(given)
    }

    /// Whether this bench is as it was saved last, or opened if it was not saved since. Steps that were undone and done
    /// again make no difference; the same cells put by another step do. Refused with [`NoSuchBench`].
    ///
    /// [`NoSuchBench`]: crate::Refusal::NoSuchBench
    pub fn is_unchanged(&self, bench: usize) -> Result<bool, Refused> {
        let ([text0, text1], history) = (&self.texts, &self.history);
        // SAFETY: each pointer comes with the length of its vector.
        let asked = unsafe {
            ffi::qalithonda_benches_unchanged(
                self.numbers,
                bench,
                text0.as_ptr(),
                text0.len(),
                text1.as_ptr(),
                text1.len(),
                history.as_ptr(),
                history.len(),
            )
        };
        asked.answer.answer()?;
        Ok(asked.unchanged == 1)
    }

    /// Both benches as they stand.
    pub fn both(&self) -> [Bench<'_>; 2] {
        [self.bench(0, self.numbers.bench0), self.bench(1, self.numbers.bench1)]
    }

    /// The records of the steps of both, one after another in the order in which they were accepted: bench, place,
    /// count removed, count added, the removed cells, the added cells.
    pub fn history(&self) -> &[u32] {
        &self.history[..self.numbers.used]
    }

    fn bench(&self, bench: usize, numbers: ffi::Bench) -> Bench<'_> {
        Bench {
            kind: self.kinds[bench],
            arrived: &self.arrived[bench],
            text: &self.texts[bench][..numbers.length],
            opening: numbers.opening,
            standing: numbers.standing,
            saved: (numbers.saved != ffi::NEVER_SAVED).then_some(numbers.saved),
        }
    }

    fn step(&mut self, call: Move, bench: usize) -> Result<usize, Refused> {
        let ([text0, text1], history) = (&mut self.texts, &self.history);
        // SAFETY: each pointer comes with the length of its vector.
        let edited = unsafe {
            call(
                self.numbers,
                bench,
                text0.as_mut_ptr(),
                text0.len(),
                text1.as_mut_ptr(),
                text1.len(),
                history.as_ptr(),
                history.len(),
            )
        };
        self.take(edited)
    }

    /// The bytes of this bench's letter, and the benches with its mark set, which are not kept yet. (No bench has no
    /// arrived bytes.)
    fn saved_in(&self, bench: usize, out: &mut [u8]) -> ffi::BenchesEdited {
        let ([text0, text1], history) = (&self.texts, &self.history);
        let arrived = self.arrived.get(bench).map_or(&[][..], Vec::as_slice);
        // SAFETY: each pointer comes with the length of its slice or vector.
        unsafe {
            ffi::qalithonda_benches_save(
                self.numbers,
                bench,
                text0.as_ptr(),
                text0.len(),
                text1.as_ptr(),
                text1.len(),
                history.as_ptr(),
                history.len(),
                arrived.as_ptr(),
                arrived.len(),
                out.as_mut_ptr(),
                out.len(),
            )
        }
    }

    /// A refused call gives the benches back as they were.
    fn take(&mut self, edited: ffi::BenchesEdited) -> Result<usize, Refused> {
        self.numbers = edited.benches;
        edited.answer.answer()
    }
}
