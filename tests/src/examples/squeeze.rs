//! Examples of squeezing: pages on which two or three steps are folded, and what is refused.

use super::page::{Course, Judged, Turn};
use crate::calls::blank;
use crate::second::page::{Left, Page, State};
use crate::second::{Answer, Call, Kind, LIMIT};

/// The opening text "ab" becomes "Xb", "XY" and "Z".
const FIRST: [u32; 5] = [0, 1, 1, 0x61, 0x58];
const SECOND: [u32; 5] = [1, 1, 1, 0x62, 0x59];
const THIRD: [u32; 6] = [0, 2, 1, 0x58, 0x59, 0x5A];

/// The first two steps as one.
const FOLD: [u32; 7] = [0, 2, 2, 0x61, 0x62, 0x58, 0x59];

/// A body page opened on two cells: its words done, its mark, its text and its records; with room for 3 cells and 18
/// words.
fn page(done: usize, saved: Option<usize>, text: &[u8], records: &[&[u32]]) -> State {
    let mut history = records.concat();
    let mut cells: Vec<u32> = text.iter().map(|&byte| byte.into()).collect();
    let (length, used, kind) = (cells.len(), history.len(), Kind::Utf7Body.number());
    history.resize(18, 0);
    cells.resize(3, 0);
    State { page: Page { kind, opening: 2, length, used, done, saved }, text: cells, history }
}

/// The page with all steps done.
fn done(saved: Option<usize>) -> State {
    page(16, saved, b"Z", &[&FIRST, &SECOND, &THIRD])
}

fn squeeze(steps: usize, work: usize) -> Call {
    Call::Squeeze { steps, work }
}

/// A call with no output, and what it leaves.
fn turn(call: Call, number: u32, place: usize, state: &State, work: &[u32]) -> Turn {
    let left = Left { answer: Answer { number, place }, state: state.clone(), output: vec![], work: work.to_vec() };
    Turn { call, left, unchanged: state.page.saved == Some(state.page.done) }
}

/// A course that is opened on "ab" and squeezed twice, one on pages made by hand, and marks that move or go.
pub fn courses() -> Vec<Course> {
    let mut courses = vec![opened(), odd()];
    courses.extend(marks());
    courses
}

/// Two steps are folded while the third is undone; it can be redone, and the fold undone. Then all are folded.
fn opened() -> Course {
    let replace = |place, count, cells: &[u32]| Call::Replace { place, count, cells: cells.to_vec() };
    let all = [0, 2, 1, 0x61, 0x62, 0x5A];
    let turns = vec![
        turn(Call::Open { kind: Kind::Utf7Body, arrived: b"ab".to_vec() }, 0, 2, &page(0, Some(0), b"ab", &[]), &[]),
        turn(replace(0, 1, &[0x58]), 0, 2, &page(5, Some(0), b"Xb", &[&FIRST]), &[]),
        turn(replace(1, 1, &[0x59]), 0, 2, &page(10, Some(0), b"XY", &[&FIRST, &SECOND]), &[]),
        turn(replace(0, 2, &[0x5A]), 0, 1, &done(Some(0)), &[]),
        turn(Call::Undo, 0, 2, &page(10, Some(0), b"XY", &[&FIRST, &SECOND, &THIRD]), &[]),
        turn(squeeze(2, 7), 0, 13, &page(7, Some(0), b"XY", &[&FOLD, &THIRD]), &FOLD),
        turn(Call::Redo, 0, 1, &page(13, Some(0), b"Z", &[&FOLD, &THIRD]), &[]),
        turn(Call::Undo, 0, 2, &page(7, Some(0), b"XY", &[&FOLD, &THIRD]), &[]),
        turn(Call::Undo, 0, 2, &page(0, Some(0), b"ab", &[&FOLD, &THIRD]), &[]),
        turn(Call::Undo, 13, 0, &page(0, Some(0), b"ab", &[&FOLD, &THIRD]), &[]),
        turn(Call::Redo, 0, 2, &page(7, Some(0), b"XY", &[&FOLD, &THIRD]), &[]),
        turn(Call::Redo, 0, 1, &page(13, Some(0), b"Z", &[&FOLD, &THIRD]), &[]),
        turn(squeeze(2, 6), 0, 6, &page(6, Some(0), b"Z", &[&all]), &all),
        turn(squeeze(2, 0), 11, 0, &page(6, Some(0), b"Z", &[&all]), &[]),
        turn(Call::Undo, 0, 2, &page(0, Some(0), b"ab", &[&all]), &[]),
    ];
    Course { name: "a body page on \"ab\" that is squeezed", start: blank(3, 18), turns }
}

/// A sound page whose records do not fit its text: what is undone is not what redoing would give.
fn odd() -> Course {
    let second = [1, 1, 1, 0x63, 0x59];
    let third = [0, 2, 1, 0x70, 0x71, 0x5A];
    // From "q": undone, "pq", then "pc", then "ac".
    let fold = [0, 2, 2, 0x61, 0x63, 0x70, 0x71];
    let turns = vec![
        turn(squeeze(2, 7), 0, 13, &page(13, None, b"q", &[&fold, &third]), &fold),
        turn(Call::Undo, 0, 2, &page(7, None, b"pq", &[&fold, &third]), &[]),
        turn(Call::Undo, 0, 2, &page(0, None, b"ac", &[&fold, &third]), &[]),
        turn(Call::Redo, 0, 2, &page(7, None, b"pq", &[&fold, &third]), &[]),
    ];
    Course { name: "an odd page", start: page(16, None, b"q", &[&FIRST, &second, &third]), turns }
}

/// The mark of the page with all steps done, and what it is when two are folded.
fn marks() -> Vec<Course> {
    let marked = [(Some(0), Some(0)), (Some(5), None), (Some(10), Some(7)), (Some(16), Some(13)), (None, None)];
    let course = |(before, after)| Course {
        name: "a mark",
        start: done(before),
        turns: vec![turn(squeeze(2, 7), 0, 13, &page(13, after, b"Z", &[&FOLD, &THIRD]), &FOLD)],
    };
    marked.map(course).into_iter().collect()
}

fn judge(name: &'static str, state: State, call: Call, number: u32, place: usize) -> Judged {
    Judged { name, state, call, answer: Answer { number, place } }
}

/// Squeezes in the order of the numbers.
pub fn judged() -> Vec<Judged> {
    let changed = |change: fn(&mut State)| {
        let mut state = done(Some(16));
        change(&mut state);
        state
    };
    // Three steps that change nothing have as many words as a fold of three cells.
    let mut even = page(9, None, b"abc", &[&[0; 3], &[0; 3], &[0; 3]]);
    even.page.opening = 3;
    vec![
        judge("three steps", done(Some(16)), squeeze(3, 6), 0, 6),
        judge("three steps in more room", done(Some(16)), squeeze(3, 600), 0, 6),
        judge("no steps", done(None), squeeze(0, 0), 11, 0),
        judge("one step", done(None), squeeze(1, 0), 11, 0),
        judge("more steps than stand", done(None), squeeze(4, 0), 11, 0),
        judge("the largest number of steps", done(None), squeeze(usize::MAX, 20), 11, 0),
        judge("two steps, cut off at 32 bits", done(None), squeeze((1 << 32) + 2, 20), 11, 0),
        judge("an undone step", page(10, None, b"XY", &[&FIRST, &SECOND, &THIRD]), squeeze(3, 20), 11, 0),
        judge("no gain, and no room", page(6, None, b"ab", &[&[0; 3], &[0; 3], &[0; 3]]), squeeze(2, 0), 19, 0),
        judge("no room", done(None), squeeze(2, 6), 9, 7),
        judge("no room at all", done(None), squeeze(3, 0), 9, 6),
        judge("a page that is not sound, and no steps", changed(|state| state.page.done = 15), squeeze(0, 0), 14, 0),
        judge("a mark within a record", changed(|state| state.page.saved = Some(4)), squeeze(2, 7), 14, 0),
        judge("a number of no kind", changed(|state| state.page.kind = 3), squeeze(2, 7), 14, 0),
        judge("a text over the limit", changed(|state| state.text.resize(LIMIT + 1, 1)), squeeze(0, 0), 16, LIMIT),
        judge(
            "a history over the limit",
            changed(|state| state.history.resize(LIMIT + 1, 1)),
            squeeze(0, 0),
            16,
            LIMIT,
        ),
        judge("a work buffer over the limit", done(None), squeeze(2, LIMIT + 1), 0, 13),
        judge("one word more", page(6, None, b"ab", &[&[0; 3], &[0; 3]]), squeeze(2, 20), 19, 0),
        judge("as many words", even, squeeze(3, 20), 19, 0),
        judge("one word fewer", page(8, None, b"Xb", &[&FIRST, &[0; 3]]), squeeze(2, 20), 0, 7),
    ]
}
