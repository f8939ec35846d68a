//! Examples of the page: that of document 01 with the marks of order 5 of document 02, and pages made by hand.

use std::fmt::{self, Display, Formatter};

use crate::calls::{blank, Change};
use crate::second::page::{Asked, Left, Page, State};
use crate::second::{Answer, Call, Kind, LIMIT};

/// Calls one after another.
pub struct Course {
    pub name: &'static str,
    pub start: State,
    pub turns: Vec<Turn>,
}

/// A call, what it leaves, and whether the page is then as it was saved.
pub struct Turn {
    pub call: Call,
    pub left: Left,
    pub unchanged: bool,
}

/// A call on a page made by hand, and its answer.
pub struct Judged {
    pub name: &'static str,
    pub state: State,
    pub call: Call,
    pub answer: Answer,
}

/// The question on a page made by hand, and what it gives.
pub struct Question {
    pub name: &'static str,
    pub state: State,
    pub asked: Asked,
}

impl Display for Course {
    fn fmt(&self, f: &mut Formatter) -> fmt::Result {
        write!(f, "{}", self.name)
    }
}

impl Display for Judged {
    fn fmt(&self, f: &mut Formatter) -> fmt::Result {
        write!(f, "{}, {}", self.name, self.call)
    }
}

impl Display for Question {
    fn fmt(&self, f: &mut Formatter) -> fmt::Result {
        write!(f, "{}, asked with {}", self.name, self.state.page)
    }
}

/// A body page: its opening length, length, words used and words done, its mark, and its buffers.
fn body(numbers: [usize; 4], saved: Option<usize>, text: &[u32], history: &[u32]) -> State {
    let [opening, length, used, done] = numbers;
    let page = Page { kind: Kind::Utf7Body.number(), opening, length, used, done, saved };
    State { page, text: text.to_vec(), history: history.to_vec() }
}

fn replace(place: usize, count: usize, cells: &[u32]) -> Call {
    Call::Replace { place, count, cells: cells.to_vec() }
}

fn save(arrived: &[u8], room: usize) -> Call {
    Call::Save { arrived: arrived.to_vec(), room }
}

/// What a call leaves that fills the whole of its output, or none of it.
fn leaves(number: u32, place: usize, state: &State, output: &[u8]) -> Left {
    Left { answer: Answer { number, place }, state: state.clone(), output: output.to_vec(), work: vec![] }
}

/// A call after which the page is as it was saved.
fn same(call: Call, left: Left) -> Turn {
    Turn { call, left, unchanged: true }
}

/// A call after which it is not.
fn other(call: Call, left: Left) -> Turn {
    Turn { call, left, unchanged: false }
}

const P2: &[u8] = b"A+ImIDkQ.";

/// The worked page of document 01, and pages that are saved and go on.
pub fn courses() -> Vec<Course> {
    worked().into_iter().chain([marks()]).collect()
}

/// "Body page on P2, one cell at 1 replaced by 003D: history 1 1 1 2262 003D (hex), save "A=+A5E-."; undo, save
/// "A+ImIDkQ."; undo again: 13. With four words of history the replace is 12, place 5."
fn worked() -> [Course; 2] {
    let open = Call::Open { kind: Kind::Utf7Body, arrived: P2.to_vec() };
    let [text, replaced] = [[0x41, 0x2262, 0x391, 0x2E, 0], [0x41, 0x3D, 0x391, 0x2E, 0]];
    let history = [1, 1, 1, 0x2262, 0x3D, 0];
    let opened = body([4, 4, 0, 0], Some(0), &text, &[0; 6]);
    let replaced = |saved| body([4, 4, 5, 5], Some(saved), &replaced, &history);
    let undone = |saved| body([4, 4, 5, 0], Some(saved), &text, &history);
    let with_four_words = body([4, 4, 0, 0], Some(0), &text, &[0; 4]);
    [
        Course {
            name: "the body page on P2",
            start: blank(5, 6),
            turns: vec![
                same(open.clone(), leaves(0, 4, &opened, b"")),
                other(replace(1, 1, &[0x3D]), leaves(0, 4, &replaced(0), b"")),
                same(save(P2, 8), leaves(0, 8, &replaced(5), b"A=+A5E-.")),
                other(Call::Undo, leaves(0, 4, &undone(5), b"")),
                same(save(P2, 9), leaves(0, 9, &undone(0), b"A+ImIDkQ.")),
                same(Call::Undo, leaves(13, 0, &undone(0), b"")),
            ],
        },
        Course {
            name: "the body page on P2 with four words of history",
            start: blank(5, 4),
            turns: vec![
                same(open, leaves(0, 4, &with_four_words, b"")),
                same(replace(1, 1, &[0x3D]), leaves(12, 5, &with_four_words, b"")),
            ],
        },
    ]
}

/// The worked page of document 01 when its one cell is replaced.
pub fn worked_page() -> State {
    body([4, 4, 5, 5], Some(0), &[0x41, 0x3D, 0x391, 0x2E, 0], &[1, 1, 1, 0x2262, 0x3D, 0])
}

/// A body page on "abc" that is saved and goes on.
fn marks() -> Course {
    let turns = kept_marks().into_iter().chain(dropped_mark()).collect();
    Course { name: "the body page on \"abc\"", start: blank(4, 9), turns }
}

/// That page with these words used and done, this mark and text, and these records.
fn on_abc(used: usize, done: usize, saved: Option<usize>, text: &[u8], records: &[&[u32]]) -> State {
    let mut cells: Vec<u32> = text.iter().map(|&byte| byte.into()).collect();
    let mut history = records.concat();
    cells.resize(4, 0);
    history.resize(9, 0);
    body([3, text.len(), used, done], saved, &cells, &history)
}

/// X is put before the text, then its a is removed.
const BOTH: &[&[u32]] = &[&[0, 0, 1, 0x58], &[1, 1, 0, 0x61]];

/// Both steps recorded, and one of them undone.
fn one_undone(saved: usize) -> State {
    on_abc(8, 4, Some(saved), b"Xabc", BOTH)
}

/// Undo and redo lead away from the mark and back to it, and a refused save leaves it.
fn kept_marks() -> Vec<Turn> {
    let opened = on_abc(0, 0, Some(0), b"abc", &[]);
    let with_x = |saved| on_abc(4, 4, Some(saved), b"Xabc", &BOTH[..1]);
    let all_done = |saved| on_abc(8, 8, Some(saved), b"Xbc", BOTH);
    let all_undone = on_abc(8, 0, Some(4), b"abc", BOTH);
    vec![
        same(Call::Open { kind: Kind::Utf7Body, arrived: b"abc".to_vec() }, leaves(0, 3, &opened, b"")),
        other(replace(0, 0, &[0x58]), leaves(0, 4, &with_x(0), b"")),
        same(save(b"", 4), leaves(0, 4, &with_x(4), b"Xabc")),
        other(replace(1, 1, &[]), leaves(0, 3, &all_done(4), b"")),
        same(Call::Undo, leaves(0, 4, &one_undone(4), b"")),
        other(Call::Undo, leaves(0, 3, &all_undone, b"")),
        other(save(b"ab", 0), leaves(15, 0, &all_undone, b"")),
        other(save(b"abc", 0), leaves(9, 3, &all_undone, b"")),
        same(Call::Redo, leaves(0, 4, &one_undone(4), b"")),
        other(Call::Redo, leaves(0, 3, &all_done(4), b"")),
        same(save(b"abc", 3), leaves(0, 3, &all_done(8), b"Xbc")),
        other(Call::Undo, leaves(0, 4, &one_undone(8), b"")),
    ]
}

/// A refused replace leaves the mark that stands behind an undone step; an accepted one drops it with the step.
fn dropped_mark() -> Vec<Turn> {
    let dropped = |done, saved, text: &[u8]| on_abc(7, done, saved, text, &[BOTH[0], &[4, 0, 0]]);
    vec![
        other(replace(0, 0, &[65_536]), leaves(10, 0, &one_undone(8), b"")),
        other(replace(0, 4, &[0x61; 4]), leaves(12, 15, &one_undone(8), b"")),
        other(replace(4, 0, &[]), leaves(0, 4, &dropped(7, None, b"Xabc"), b"")),
        other(Call::Undo, leaves(0, 4, &dropped(4, None, b"Xabc"), b"")),
        other(Call::Undo, leaves(0, 3, &dropped(0, None, b"abc"), b"")),
        same(save(b"abc", 3), leaves(0, 3, &dropped(0, Some(0), b"abc"), b"abc")),
        other(Call::Redo, leaves(0, 4, &dropped(4, Some(0), b"Xabc"), b"")),
        same(save(b"abc", 4), leaves(0, 4, &dropped(4, Some(4), b"Xabc"), b"Xabc")),
    ]
}

/// A sound page: the step of document 01 stands and was saved, and one that puts 0042 0043 in the place of 0041 at 0 is
/// undone. Both buffers have room for one element or two more.
fn edited() -> State {
    let history = [1, 1, 1, 0x2262, 0x3D, 0, 1, 2, 0x41, 0x42, 0x43, 0];
    body([4, 4, 11, 5], Some(5), &[0x41, 0x3D, 0x391, 0x2E, 0, 0], &history)
}

/// The sound page with these changes.
fn with(changes: &[Change]) -> State {
    let mut state = edited();
    changes.iter().for_each(|change| change.make(&mut state));
    state
}

/// Changes that leave the page not sound, each with the reason.
const NOT_SOUND: [(&str, &[Change]); 35] = [
    ("a number of no kind", &[Change::Kind(3)]),
    (
        "an opening length over the text buffer",
        &[Change::Opening(7), Change::Word(1, 2), Change::Word(2, 0), Change::Length(5)],
    ),
    ("an opening length that does not lead to the length", &[Change::Opening(5)]),
    ("a length over the text buffer", &[Change::Length(7)]),
    ("a length that is not reached", &[Change::Length(5)]),
    ("more words used than there are", &[Change::Used(13)]),
    ("the largest number of words used", &[Change::Used(usize::MAX)]),
    ("a last record cut short", &[Change::Used(10)]),
    ("a word after the last record", &[Change::Used(12)]),
    ("done within a record", &[Change::Done(3)]),
    ("done past the records", &[Change::Done(12)]),
    ("done where another length is reached", &[Change::Done(11)]),
    ("a standing step beyond the text", &[Change::Word(0, 4)]),
    ("an undone step beyond the text", &[Change::Word(5, 4)]),
    (
        "an undone step that removes nothing, beyond the text",
        &[Change::Word(5, 5), Change::Word(6, 0), Change::Word(7, 2), Change::Used(10), Change::Word(10, 0)],
    ),
    ("an undone step that is too long for the text buffer", &[Change::Word(6, 0), Change::Word(7, 3)]),
    ("a place of FFFFFFFF", &[Change::Word(0, u32::MAX)]),
    ("FFFFFFFF cells removed", &[Change::Word(1, u32::MAX)]),
    ("FFFFFFFF cells added", &[Change::Word(2, u32::MAX)]),
    ("sums that are right if cut off at 32 bits", &[Change::Word(1, u32::MAX), Change::Word(2, 3)]),
    ("records that do not tile", &[Change::Word(2, 2)]),
    ("a cell past the length", &[Change::Cell(4, 1)]),
    ("a last cell past the length", &[Change::Cell(5, 1)]),
    ("a word past those used", &[Change::Word(11, 1)]),
    ("a mark at the first word", &[Change::Saved(Some(1))]),
    ("a mark at the last word of a standing step", &[Change::Saved(Some(4))]),
    ("a mark just past a standing step", &[Change::Saved(Some(6))]),
    ("a mark within an undone step", &[Change::Saved(Some(8))]),
    ("a mark at the last word of an undone step", &[Change::Saved(Some(10))]),
    ("a mark past the records", &[Change::Saved(Some(12))]),
    ("a mark past the history", &[Change::Saved(Some(13))]),
    ("the largest mark", &[Change::Saved(Some(usize::MAX - 1))]),
    ("a mark that is right if cut off at 32 bits", &[Change::Saved(Some((1 << 32) + 5))]),
    ("a mark of 0 if cut off at 32 bits", &[Change::Saved(Some(1 << 32))]),
    (
        "a mark at words that are used no more",
        &[
            Change::Saved(Some(11)),
            Change::Used(5),
            Change::Word(6, 0),
            Change::Word(7, 0),
            Change::Word(8, 0),
            Change::Word(9, 0),
            Change::Word(10, 0),
        ],
    ),
];

/// The question on pages made by hand.
pub fn questions() -> Vec<Question> {
    let not_sound = NOT_SOUND.iter().map(|&(name, changes)| question(name, with(changes), 14, 0, false));
    let on_sound = |name, changes: &[Change], unchanged| question(name, with(changes), 0, 0, unchanged);
    let too_long = |cells, words| body([0; 4], Some(0), &vec![7; cells], &vec![7; words]);
    let no_kind = |cells, words| {
        let mut state = too_long(cells, words);
        state.page.kind = 3;
        state
    };
    let all_done = [Change::Done(11), Change::Length(5)];
    let nothing_used = |saved| body([1, 1, 0, 0], saved, &[0x61], &[]);
    let others = [
        on_sound("a sound page", &[], true),
        on_sound("no mark", &[Change::Saved(None)], false),
        on_sound("a mark at 0", &[Change::Saved(Some(0))], false),
        on_sound("a mark at the words used", &[Change::Saved(Some(11))], false),
        on_sound("no step stands", &[Change::Done(0)], false),
        on_sound("no step stands, and none was saved", &[Change::Done(0), Change::Saved(Some(0))], true),
        on_sound("no step stands, and there is no mark", &[Change::Done(0), Change::Saved(None)], false),
        on_sound("all steps stand", &all_done, false),
        on_sound("all steps stand and were saved", &[&all_done[..], &[Change::Saved(Some(11))]].concat(), true),
        question("a page on which nothing was done", nothing_used(Some(0)), 0, 0, true),
        question("a page on which nothing was done, with no mark", nothing_used(None), 0, 0, false),
        question("an empty page in empty buffers", body([0; 4], Some(0), &[], &[]), 0, 0, true),
        question("a text buffer over the limit", too_long(LIMIT + 1, 0), 16, LIMIT, false),
        question("a history over the limit", too_long(0, LIMIT + 1), 16, LIMIT, false),
        question("buffers at the limit, and not sound", too_long(LIMIT, LIMIT), 14, 0, false),
        question("a number of no kind and a history over the limit", no_kind(0, LIMIT + 1), 16, LIMIT, false),
        question("a number of no kind and buffers at the limit", no_kind(LIMIT, LIMIT), 14, 0, false),
    ];
    not_sound.chain(others).collect()
}

fn question(name: &'static str, state: State, number: u32, place: usize, unchanged: bool) -> Question {
    Question { name, state, asked: Asked { answer: Answer { number, place }, unchanged } }
}

/// Calls on pages made by hand, sound and not.
pub fn judged() -> Vec<Judged> {
    let not_sound = NOT_SOUND.iter().flat_map(|&(name, changes)| {
        let keep = Call::Keep { arrived: P2.to_vec(), room: 400 };
        let squeeze = Call::Squeeze { steps: 2, work: 20 };
        let calls = [Call::Undo, Call::Redo, replace(0, 0, &[]), save(P2, 9), keep, squeeze];
        calls.map(|call| judge(name, with(changes), call, 14, 0))
    });
    not_sound.chain(sound_pages()).chain(replacements()).collect()
}

fn judge(name: &'static str, state: State, call: Call, number: u32, place: usize) -> Judged {
    Judged { name, state, call, answer: Answer { number, place } }
}

/// Undo, redo and save on sound pages, of which some hold what no call put there.
fn sound_pages() -> Vec<Judged> {
    let nothing_stands = || with(&[Change::Done(0)]);
    let appended = [Change::Word(0, 4), Change::Word(1, 0), Change::Word(2, 2), Change::Length(6)];
    let then_cut = [Change::Word(6, 2), Change::Word(7, 1)];
    let all_done = [Change::Done(11), Change::Length(5)];
    let other_contents = [Change::Cell(1, 0x7A), Change::Word(3, 0x7B), Change::Word(4, 0x7C)];
    let empty = || body([0; 4], Some(0), &[], &[]);
    let undone_mark = || with(&[Change::Saved(Some(11))]);
    vec![
        judge("a sound page", edited(), Call::Undo, 0, 4),
        judge("a sound page", edited(), Call::Redo, 0, 5),
        judge("a sound page", edited(), save(b"~", 8), 0, 8),
        judge("a sound page", edited(), save(P2, 7), 9, 8),
        judge("a mark at an undone step", undone_mark(), Call::Undo, 0, 4),
        judge("a mark at an undone step", undone_mark(), Call::Redo, 0, 5),
        judge("a mark at an undone step", undone_mark(), save(P2, 7), 9, 8),
        judge("a mark at an undone step", undone_mark(), save(P2, 8), 0, 8),
        judge("a mark at an undone step", undone_mark(), replace(0, 0, &[]), 0, 4),
        judge("a mark at an undone step", undone_mark(), replace(0, 2, &[0x61; 3]), 12, 13),
        judge("no mark", with(&[Change::Saved(None)]), save(P2, 8), 0, 8),
        judge("no mark", with(&[Change::Saved(None)]), save(P2, 7), 9, 8),
        judge("no mark", with(&[Change::Saved(None)]), replace(0, 0, &[]), 0, 4),
        judge("cells that no record has", with(&other_contents), Call::Undo, 0, 4),
        judge("a step at the end of the text", with(&[&appended[..], &then_cut].concat()), Call::Undo, 0, 4),
        judge("all steps stand", with(&all_done), Call::Redo, 13, 0),
        judge("all steps stand", with(&all_done), Call::Undo, 0, 4),
        judge("no step stands", nothing_stands(), Call::Undo, 13, 0),
        judge("no step stands", nothing_stands(), save(P2, 8), 15, 0),
        judge("no step stands", nothing_stands(), save(b"A=+A5E-.", 8), 0, 8),
        judge("no step stands", nothing_stands(), save(b"A=+A5EAAA.", 10), 15, 0),
        judge("no step stands", nothing_stands(), save(b"A=+A5E.", 6), 9, 7),
        judge("no step stands", nothing_stands(), save(b"A=+A5EA.", 8), 15, 0),
        judge("no step stands", nothing_stands(), save(b"A=+A5E-.~", 9), 15, 0),
        judge("a text that is not writable", with(&[Change::Cell(2, 65_536)]), save(P2, 0), 10, 2),
        judge("a text of another kind", with(&[Change::Kind(2)]), save(P2, 9), 10, 0),
        judge("a text of another style", with(&[Change::Kind(0)]), save(P2, 10), 0, 10),
        judge("an empty page in empty buffers", empty(), Call::Undo, 13, 0),
        judge("an empty page in empty buffers", empty(), Call::Redo, 13, 0),
        judge("an empty page in empty buffers", empty(), save(b"", 0), 0, 0),
        judge("an empty page in empty buffers", empty(), replace(0, 0, &[]), 12, 3),
    ]
}

/// Replacements on a sound page, in the order of the numbers.
fn replacements() -> Vec<Judged> {
    let on_sound = |name, call, number, place| judge(name, edited(), call, number, place);
    vec![
        on_sound("nothing removed and nothing added", replace(4, 0, &[]), 0, 4),
        on_sound("a history that is just full", replace(0, 2, &[0x61; 2]), 0, 4),
        on_sound("a place and a count that are just within the text", replace(3, 1, &[]), 0, 3),
        on_sound("a place beyond the text", replace(5, 0, &[65_536]), 11, 4),
        on_sound("a count beyond the text", replace(3, 2, &[]), 11, 4),
        on_sound("the largest place and count", replace(usize::MAX, usize::MAX, &[]), 11, 4),
        on_sound("a sum that is right if cut off", replace(2, usize::MAX, &[]), 11, 4),
        on_sound("a cell that is not writable, and no room", replace(0, 0, &[0x61, 0x61, 0x61, 65_536]), 10, 3),
        on_sound("no room, and no words", replace(0, 1, &[0x61; 4]), 9, 7),
        on_sound("no room", replace(0, 0, &[0x61; 3]), 9, 7),
        on_sound("no words", replace(0, 2, &[0x61; 3]), 12, 13),
    ]
}
