//! The page, after the sections "The page" and "Numbers given back" of document 01, with the saved mark of order 5 of
//! document 02. A call is a function from all that is lent to all that is left: the history is cut into a list of
//! records, the text is built anew as another list, and both are laid out again.

use std::fmt::{self, Display, Formatter};

use super::squeeze::{squeeze, Squeezed};
use super::{outcome, page_file, refuse, within_limit, Answer, Call, Elements, Kind, Outcome};

/// "A page has a kind (..), an opening length, a length, words used and words done." The kind is a number, which may be
/// that of no kind. Order 5: "The page gains a saved mark: the words done at the last accepted save, or none."
#[derive(Clone, Copy, Debug, PartialEq, Eq)]
pub struct Page {
    pub kind: u32,
    pub opening: usize,
    pub length: usize,
    pub used: usize,
    pub done: usize,
    pub saved: Option<usize>,
}

impl Page {
    /// A page of this length on which nothing was done. Order 5: "An accepted open sets it to 0".
    pub fn opened(kind: Kind, length: usize) -> Page {
        Page { kind: kind.number(), opening: length, length, used: 0, done: 0, saved: Some(0) }
    }

    /// "A refused open gives the kind with four zeros." Order 5: "a refused one to none".
    fn refused(kind: Kind) -> Page {
        Page { saved: None, ..Page::opened(kind, 0) }
    }
}

/// The mark that a number stands for in the C interface, where the largest is none.
pub fn mark_of(number: usize) -> Option<usize> {
    (number != usize::MAX).then_some(number)
}

/// "Lent beside it are a text buffer of cells and a history of 32-bit words."
#[derive(Clone, Debug, PartialEq, Eq)]
pub struct State {
    pub page: Page,
    pub text: Vec<u32>,
    pub history: Vec<u32>,
}

/// What a call leaves: its answer, the page with both buffers, and the whole of the output and of the work buffer lent
/// to it.
#[derive(Clone, Debug, PartialEq, Eq)]
pub struct Left {
    pub answer: Answer,
    pub state: State,
    pub output: Vec<u8>,
    pub work: Vec<u32>,
}

impl Left {
    /// The file that it gives, if this call is a keeping and was accepted.
    pub fn file(&self, call: &Call) -> Option<Vec<u8>> {
        match call {
            Call::Keep { .. } if self.answer.number == 0 => self.output.get(..self.answer.place).map(<[u8]>::to_vec),
            _ => None,
        }
    }
}

/// What the question gives.
#[derive(Clone, Copy, Debug, PartialEq, Eq)]
pub struct Asked {
    pub answer: Answer,
    pub unchanged: bool,
}

impl Display for Asked {
    fn fmt(&self, f: &mut Formatter) -> fmt::Result {
        write!(f, "{}, {}", self.answer, if self.unchanged { "unchanged" } else { "changed" })
    }
}

/// What a call leaves that is lent this state and this output, and a work buffer of zeros.
pub fn left(state: &State, call: &Call, output: &[u8]) -> Left {
    left_of_all(state, call, output, &vec![0; call.work()])
}

/// What a call leaves that is lent this state, this output and this work buffer.
pub fn left_of_all(state: &State, call: &Call, output: &[u8], work: &[u32]) -> Left {
    let left = match call {
        Call::Squeeze { steps, .. } => return squeezed(state, squeeze(state, *steps), output, work),
        Call::Open { kind, arrived } => {
            let blank = State { page: Page::refused(*kind), ..state.clone() };
            edited(&blank, open(&blank, *kind, arrived), output)
        }
        Call::Replace { place, count, cells } => edited(state, replace(state, *place, *count, cells), output),
        Call::Undo => edited(state, undo(state), output),
        Call::Redo => edited(state, redo(state), output),
        Call::Save { arrived, .. } => {
            let saved = outcome(&save(state, arrived), output);
            // Order 5: "an accepted save sets it to the words done", and "Save now gives a page back."
            let mark = if saved.answer.number == 0 { Some(state.page.done) } else { state.page.saved };
            let state = State { page: Page { saved: mark, ..state.page }, ..state.clone() };
            Left { answer: saved.answer, state, output: saved.output, work: vec![] }
        }
        Call::Keep { arrived, .. } => {
            let kept = outcome(&page_file::keep(state, arrived), output);
            Left { answer: kept.answer, state: state.clone(), output: kept.output, work: vec![] }
        }
    };
    Left { work: work.to_vec(), ..left }
}

/// What a squeeze leaves. Order 8: "The new words used are answered." "9 when a lent work buffer, of any length, cannot
/// hold the new record; accepted, that record stands first in it, its rest untouched."
fn squeezed(before: &State, after: Result<Squeezed, Answer>, output: &[u8], work: &[u32]) -> Left {
    let (record, state) = match after {
        Ok(Squeezed { record, state }) => (Ok(record), state),
        Err(answer) => (Err(answer), before.clone()),
    };
    let Outcome { answer, output: work } = outcome(&record, work);
    let left = |answer, state| Left { answer, state, output: output.to_vec(), work };
    match answer.number {
        0 => left(Answer { number: 0, place: state.page.used }, state),
        _ => left(answer, before.clone()),
    }
}

/// Order 5: "the question gives 16, then 14, else place 0", and 'A new question answers "unchanged" exactly when the
/// mark equals the words done.' Refused, it answers no.
pub fn ask(state: &State) -> Asked {
    match accepted_page(state, 0) {
        Err(answer) => Asked { answer, unchanged: false },
        Ok(_) => Asked { answer: Answer { number: 0, place: 0 }, unchanged: state.page.saved == Some(state.page.done) },
    }
}

/// What is left by a call that gives this state, or refuses; it has no use for the output.
fn edited(before: &State, after: Result<State, Answer>, output: &[u8]) -> Left {
    let (answer, state) = match after {
        // "replace, undo and redo answer the new length", and open "the count of elements".
        Ok(state) => (Answer { number: 0, place: state.page.length }, state),
        // "A refusal changes no page and no buffer."
        Err(answer) => (answer, before.clone()),
    };
    Left { answer, state, output: output.to_vec(), work: vec![] }
}

/// "A step's record is: place, count removed, count added, the removed cells, the added cells."
#[derive(Clone, Debug, PartialEq, Eq)]
pub struct Record {
    pub place: usize,
    pub removed: Vec<u32>,
    pub added: Vec<u32>,
}

impl Record {
    pub fn words(&self) -> Vec<u32> {
        let counts = [self.place, self.removed.len(), self.added.len()].map(|number| number as u32);
        [&counts, &self.removed[..], &self.added].concat()
    }

    /// The record that these words begin with, if they hold one, and the words behind it.
    pub(super) fn first_of(words: &[u32]) -> Option<(Record, &[u32])> {
        let (&[place, removed, added], rest) = words.split_first_chunk()?;
        let (removed, rest) = rest.split_at_checked(removed as usize)?;
        let (added, rest) = rest.split_at_checked(added as usize)?;
        Some((Record { place: place as usize, removed: removed.to_vec(), added: added.to_vec() }, rest))
    }

    /// The text with this step done.
    pub fn done_on(&self, text: &[u32]) -> Vec<u32> {
        [&text[..self.place], &self.added, &text[self.place + self.removed.len()..]].concat()
    }

    /// The step that takes this one back.
    pub fn reversed(&self) -> Record {
        Record { place: self.place, removed: self.added.clone(), added: self.removed.clone() }
    }
}

/// "Records lie one after another": those that tile these words, if any do.
fn records(mut words: &[u32]) -> Option<Vec<Record>> {
    let mut records = Vec::new();
    while !words.is_empty() {
        let (record, rest) = Record::first_of(words)?;
        records.push(record);
        words = rest;
    }
    Some(records)
}

/// What a sound page says: "those before *done* stand, the others can be redone."
pub struct Sound {
    pub kind: Kind,
    pub text: Vec<u32>,
    pub standing: Vec<Record>,
    pub undone: Vec<Record>,
}

/// "A page is sound when (..)". What it says if it is.
pub fn sound(state: &State) -> Option<Sound> {
    let State { page, text, history } = state;
    // The C interface: a page whose number is of no kind is not sound.
    let kind = Kind::of_number(page.kind)?;
    // "both lengths and *used* fit their buffers"
    if [page.opening, page.length].iter().any(|&length| length > text.len()) || page.used > history.len() {
        return None;
    }
    // "the records tile the words from 0 to *used*"
    let mut records = records(&history[..page.used])?;
    let reached = reached(page.opening, &records)?;
    // "*done* is 0 or one of their ends"
    let standing = reached.iter().position(|&(end, _)| end == page.done)?;
    // Order 5: "14 also when the mark is not none and is neither 0 nor the end of a record"
    let mark_fits = page.saved.is_none_or(|mark| reached.iter().any(|&(end, _)| end == mark));
    // "no such length exceeds the text buffer"
    let lengths_fit = reached.iter().all(|&(_, length)| length <= text.len());
    // "the length reached at *done* is the page's"
    let (_, length_at_done) = reached[standing];
    // "and everything past the ends is 0."
    let mut past_the_ends = text[page.length..].iter().chain(&history[page.used..]);
    let zeros_past_the_ends = past_the_ends.all(|&element| element == 0);
    let is_sound = mark_fits && lengths_fit && length_at_done == page.length && zeros_past_the_ends;

    let undone = records.split_off(standing);
    is_sound.then(|| Sound { kind, text: text[..page.length].to_vec(), standing: records, undone })
}

/// The start and where each record ends, with "the text length reached so far from the opening length"; none if not
/// "each record's removed part lies within" that length.
pub(super) fn reached(opening: usize, records: &[Record]) -> Option<Vec<(usize, usize)>> {
    let mut reached = vec![(0, opening)];
    let (mut end, mut length) = (0, opening);
    for record in records {
        if record.place + record.removed.len() > length {
            return None;
        }
        end += record.words().len();
        length = length - record.removed.len() + record.added.len();
        reached.push((end, length));
    }
    Some(reached)
}

/// What a sound page says to a call that is lent a list of this length, or the refusal that comes before all others:
/// "16 comes first: any lent text or list (cells to add, save's arrived bytes even if unused), text buffer or history".
/// "14 | page not sound | 0"
pub(super) fn accepted_page(state: &State, list: usize) -> Result<Sound, Answer> {
    all_within_limit(state, list)?;
    sound(state).ok_or(Answer { number: 14, place: 0 })
}

pub(super) fn all_within_limit(state: &State, list: usize) -> Result<(), Answer> {
    [list, state.text.len(), state.history.len()].into_iter().try_for_each(within_limit)
}

/// This list, and zeros up to this length.
pub(super) fn padded(mut list: Vec<u32>, length: usize) -> Vec<u32> {
    list.resize(length, 0);
    list
}

/// "**Open** reads the arrived bytes into the text. Nothing stands; history is all 0."
pub(super) fn open(state: &State, kind: Kind, arrived: &[u8]) -> Result<State, Answer> {
    all_within_limit(state, arrived.len())?;
    let cells = kind.read(arrived)?;
    if cells.len() > state.text.len() {
        return refuse(9, cells.len());
    }
    Ok(State {
        page: Page::opened(kind, cells.len()),
        text: padded(cells, state.text.len()),
        history: padded(vec![], state.history.len()),
    })
}

/// "Replace: 14, 11, 10, 9, 12."
fn replace(state: &State, place: usize, count: usize, cells: &[u32]) -> Result<State, Answer> {
    let Sound { kind, text, .. } = accepted_page(state, cells.len())?;
    // "11 | place plus count beyond the length | the length"
    if place as u128 + count as u128 > text.len() as u128 {
        return refuse(11, text.len());
    }
    // "10 | cell not writable in this kind | its index"
    kind.write(cells)?;
    let step = Record { place, removed: text[place..place + count].to_vec(), added: cells.to_vec() };
    let text = step.done_on(&text);
    // "9 | too little room | elements needed"
    if text.len() > state.text.len() {
        return refuse(9, text.len());
    }
    // "**Replace** drops what could be redone, then records its step."
    let history = [&state.history[..state.page.done], &step.words()].concat();
    // "12 | record does not fit the history | words needed in all"
    if history.len() > state.history.len() {
        return refuse(12, history.len());
    }
    let used = history.len();
    // Order 5: "an accepted replace made while the mark exceeds the words done sets it to none"
    let saved = state.page.saved.filter(|&mark| mark <= state.page.done);
    let recorded = State {
        page: Page { used, saved, ..state.page },
        history: padded(history, state.history.len()),
        text: state.text.clone(),
    };
    Ok(moved(&recorded, text, used))
}

/// "**Undo** puts the last standing step's removed cells back."
fn undo(state: &State) -> Result<State, Answer> {
    let Sound { text, standing, .. } = accepted_page(state, 0)?;
    let step = standing.last().ok_or(NOTHING)?;
    Ok(moved(state, step.reversed().done_on(&text), state.page.done - step.words().len()))
}

/// "**redo** does the next one again."
fn redo(state: &State) -> Result<State, Answer> {
    let Sound { text, undone, .. } = accepted_page(state, 0)?;
    let step = undone.first().ok_or(NOTHING)?;
    Ok(moved(state, step.done_on(&text), state.page.done + step.words().len()))
}

/// "13 | nothing to undo or redo | 0"
pub(super) const NOTHING: Answer = Answer { number: 13, place: 0 };

/// The state with this text, at these words done.
fn moved(state: &State, text: Vec<u32>, done: usize) -> State {
    State {
        page: Page { length: text.len(), done, ..state.page },
        text: padded(text, state.text.len()),
        history: state.history.clone(),
    }
}

/// "**Save**: if no step stands, the arrived bytes, lent again, as they are; otherwise the text written in the page's
/// kind." The bytes that are saved, or the refusal, where there is room enough.
pub fn save(state: &State, arrived: &[u8]) -> Elements<u8> {
    let Sound { kind, text, standing, .. } = accepted_page(state, arrived.len())?;
    if !standing.is_empty() {
        return kind.write(&text);
    }
    // "15 | arrived bytes do not read as the text | 0"
    if kind.read(arrived) != Ok(text) {
        return refuse(15, 0);
    }
    Ok(arrived.to_vec())
}

#[cfg(test)]
mod tests {
    use super::*;
    use crate::examples::page::{courses, judged, questions, Turn};
    use crate::examples::squeeze;

    #[test]
    fn follows_the_courses() {
        for course in courses().into_iter().chain(squeeze::courses()) {
            let mut state = course.start.clone();
            for Turn { call, left: expected, unchanged } in &course.turns {
                let found = left(&state, call, &vec![0; call.room()]);
                assert_eq!(&found, expected, "{course}, {call}");
                state = found.state;
                let asked = Asked { answer: Answer { number: 0, place: 0 }, unchanged: *unchanged };
                assert_eq!(ask(&state), asked, "{course}, {call}");
            }
        }
    }

    #[test]
    fn answers_the_questions() {
        for question in questions() {
            assert_eq!(ask(&question.state), question.asked, "{question}");
        }
    }

    #[test]
    fn answers_the_examples() {
        for example in judged().into_iter().chain(squeeze::judged()) {
            let output = vec![0; example.call.room()];
            let found = left(&example.state, &example.call, &output);
            assert_eq!(found.answer, example.answer, "{example}");
            if found.answer.number != 0 {
                assert_eq!((found.state, found.output), (example.state, output));
            }
        }
    }

    #[test]
    fn a_refused_open_gives_the_kind_and_leaves_the_buffers() {
        let page = Page { kind: 7, opening: 1, length: 1, used: 1, done: 1, saved: Some(1) };
        let state = State { page, text: vec![7; 2], history: vec![7; 2] };
        for (arrived, number, place) in [(&b"a~"[..], 3, 1), (b"abc", 9, 3), (&vec![0x80; 1_048_577], 16, 1_048_576)] {
            let found = left(&state, &Call::Open { kind: Kind::Utf7Body, arrived: arrived.to_vec() }, &[]);
            assert_eq!(found.answer, Answer { number, place });
            let blank = Page { kind: 1, opening: 0, length: 0, used: 0, done: 0, saved: None };
            assert_eq!(found.state, State { page: blank, ..state.clone() });
        }
    }

    #[test]
    fn sixteen_comes_first() {
        let state = |cells, words| State {
            page: Page { kind: 9, opening: 1, length: 1, used: 1, done: 1, saved: Some(1) },
            text: vec![0; cells],
            history: vec![0; words],
        };
        let replace = |length| Call::Replace { place: 9, count: 9, cells: vec![u32::MAX; length] };
        let save = |length| Call::Save { arrived: vec![0x80; length], room: 0 };
        let number = |state: State, call: Call| left(&state, &call, &[]).answer.number;
        for call in [Call::Undo, Call::Redo, replace(1), save(1)] {
            assert_eq!(number(state(1_048_577, 0), call.clone()), 16);
            assert_eq!(number(state(0, 1_048_577), call.clone()), 16);
            assert_eq!(number(state(1_048_576, 1_048_576), call), 14);
        }
        let asked =
            [(1_048_577, 0), (0, 1_048_577), (1_048_576, 1_048_576)].map(|(cells, words)| ask(&state(cells, words)));
        assert_eq!(asked.map(|asked| (asked.answer.number, asked.unchanged)), [(16, false), (16, false), (14, false)]);
        assert_eq!([replace(1_048_577), save(1_048_577)].map(|call| number(state(0, 0), call)), [16, 16]);
        assert_eq!([replace(1_048_576), save(1_048_576)].map(|call| number(state(0, 0), call)), [14, 14]);
    }
}
