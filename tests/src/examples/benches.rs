//! Examples of both benches, after order 13 of document 02.

use std::fmt::{self, Display, Formatter};

use crate::calls::benches::{blank, Change};
use crate::second::benches::{Bench, Benches, Call, Left, State, Turn};
use crate::second::page::Asked;
use crate::second::{Answer, LIMIT};

/// A call, what it leaves, and whether each bench is then as it was saved.
pub struct Turned {
    pub call: Call,
    pub left: Left,
    pub unchanged: [bool; 2],
}

/// A call of benches made by hand, and its answer.
pub struct Judged {
    name: &'static str,
    pub state: State,
    pub call: Call,
    pub answer: Answer,
}

/// The question on benches made by hand, and what it gives.
pub struct Question {
    name: &'static str,
    pub state: State,
    pub bench: usize,
    pub asked: Asked,
}

impl Display for Judged {
    fn fmt(&self, f: &mut Formatter) -> fmt::Result {
        write!(f, "{}, {}", self.name, self.call)
    }
}

impl Display for Question {
    fn fmt(&self, f: &mut Formatter) -> fmt::Result {
        write!(f, "{}, asked of bench {} with {}", self.name, self.bench, self.state.benches)
    }
}

const P2: &[u8] = b"A+ImIDkQ.";

/// The cells of a, b and c in JP-2.
const A: u32 = 0x0006_0061;
const B: u32 = 0x0006_0062;
const C: u32 = 0x0006_0063;

/// A body page on P2 on bench 0 and a JP-2 page on "ab" on bench 1: the length, the standing steps and the mark of
/// each, their texts, and the records.
struct Shown<'a> {
    numbers: [(usize, usize, Option<usize>); 2],
    texts: [&'a [u32]; 2],
    records: &'a [&'a [u32]],
}

fn shown<'a>(
    numbers: [(usize, usize, Option<usize>); 2],
    texts: [&'a [u32]; 2],
    records: &'a [&'a [u32]],
) -> Shown<'a> {
    Shown { numbers, texts, records }
}

impl Shown<'_> {
    /// The state in buffers of these lengths.
    fn state(&self, cells: [usize; 2], words: usize) -> State {
        let bench = |number: usize, kind, opening| {
            let (length, standing, saved) = self.numbers[number];
            Bench { kind, opening, length, standing, saved }
        };
        let mut history = self.records.concat();
        let benches = Benches { each: [bench(0, 1, 4), bench(1, 2, 2)], used: history.len() };
        history.resize(words, 0);
        let mut texts = self.texts.map(<[u32]>::to_vec);
        texts.iter_mut().zip(cells).for_each(|(text, cells)| text.resize(cells, 0));
        State { benches, texts, history }
    }
}

fn of(bench: usize, turn: Turn) -> Call {
    Call::Of { bench, turn }
}

fn replace(bench: usize, place: usize, count: usize, cells: &[u32]) -> Call {
    of(bench, Turn::Replace { place, count, cells: cells.to_vec() })
}

fn save(bench: usize, arrived: &[u8], room: usize) -> Call {
    of(bench, Turn::Save { arrived: arrived.to_vec(), room })
}

fn open(kinds: [u32; 2], first: &[u8], second: &[u8]) -> Call {
    Call::Open { kinds, arrived: [first.to_vec(), second.to_vec()] }
}

/// The steps of the course: on bench 0 003D for the cell at 1, "!" at the end, and nothing for the first cell; on bench
/// 1 "c" at the end, and nothing for the first cell.
const EQUALS: &[u32] = &[0, 1, 1, 1, 0x2262, 0x3D];
const BANG: &[u32] = &[0, 4, 0, 1, 0x21];
const FIRST_OFF: &[u32] = &[0, 0, 1, 0, 0x41];
const APPENDED: &[u32] = &[1, 2, 0, 1, C];
const A_OFF: &[u32] = &[1, 0, 1, 0, A];

/// The texts on the way.
const OPENED: &[u32] = &[0x41, 0x2262, 0x391, 0x2E];
const REPLACED: &[u32] = &[0x41, 0x3D, 0x391, 0x2E];
const BANGED: &[u32] = &[0x41, 0x3D, 0x391, 0x2E, 0x21];
const SHORTER: &[u32] = &[0x3D, 0x391, 0x2E];
const AB: &[u32] = &[A, B];
const ABC: &[u32] = &[A, B, C];

/// The start of the course, and its calls: one history of sixteen words, which is full three times.
pub fn course() -> (State, Vec<Turned>) {
    let turns = filling().into_iter().chain(dropping()).collect();
    (blank([5, 3], 16), turns)
}

/// A turn of the course that is answered with this number and place, and gives this output.
fn turn(call: Call, (number, place): (u32, usize), output: &[u8], shown: &Shown, unchanged: [bool; 2]) -> Turned {
    let state = shown.state([5, 3], 16);
    Turned { call, left: Left { answer: Answer { number, place }, state, output: output.to_vec() }, unchanged }
}

/// Both benches fill the history; what the one has undone is no room for the other.
fn filling() -> Vec<Turned> {
    let opened = shown([(4, 0, Some(0)), (2, 0, Some(0))], [OPENED, AB], &[]);
    let one = shown([(4, 1, Some(0)), (2, 0, Some(0))], [REPLACED, AB], &[EQUALS]);
    let two = shown([(4, 1, Some(0)), (3, 1, Some(0))], [REPLACED, ABC], &[EQUALS, APPENDED]);
    let all: &[&[u32]] = &[EQUALS, APPENDED, BANG];
    let three = shown([(5, 2, Some(0)), (3, 1, Some(0))], [BANGED, ABC], all);
    let undone = shown([(4, 1, Some(0)), (3, 1, Some(0))], [REPLACED, ABC], all);
    let saved = shown([(4, 1, Some(1)), (3, 1, Some(0))], [REPLACED, ABC], all);
    let both_saved = shown([(4, 1, Some(1)), (3, 1, Some(1))], [REPLACED, ABC], all);
    let redone = shown([(5, 2, Some(1)), (3, 1, Some(1))], [BANGED, ABC], all);
    vec![
        turn(open([1, 2], P2, b"ab"), (0, 6), b"", &opened, [true, true]),
        turn(replace(0, 1, 1, &[0x3D]), (0, 4), b"", &one, [false, true]),
        turn(replace(1, 2, 0, &[C]), (0, 3), b"", &two, [false, false]),
        turn(replace(0, 4, 0, &[0x21]), (0, 5), b"", &three, [false, false]),
        turn(replace(1, 0, 1, &[]), (12, 21), b"", &three, [false, false]),
        turn(of(0, Turn::Undo), (0, 4), b"", &undone, [false, false]),
        turn(replace(1, 0, 1, &[]), (12, 21), b"", &undone, [false, false]),
        turn(save(0, P2, 8), (0, 8), b"A=+A5E-.", &saved, [true, false]),
        turn(save(1, b"", 3), (0, 3), b"abc", &both_saved, [true, true]),
        turn(of(0, Turn::Redo), (0, 5), b"", &redone, [false, true]),
    ]
}

/// A replace drops what its bench has undone, and the mark behind that, and closes the gap.
fn dropping() -> Vec<Turned> {
    let all: &[&[u32]] = &[EQUALS, APPENDED, BANG];
    let saved = shown([(5, 2, Some(2)), (3, 1, Some(1))], [BANGED, ABC], all);
    let undone = shown([(4, 1, Some(2)), (3, 1, Some(1))], [REPLACED, ABC], all);
    let all: &[&[u32]] = &[EQUALS, APPENDED, FIRST_OFF];
    let shorter = shown([(3, 2, None), (3, 1, Some(1))], [SHORTER, ABC], all);
    let bottom = shown([(3, 2, None), (2, 0, Some(1))], [SHORTER, AB], all);
    let arrived = shown([(3, 2, None), (2, 0, Some(0))], [SHORTER, AB], all);
    let all: &[&[u32]] = &[EQUALS, FIRST_OFF, A_OFF];
    let closed = shown([(3, 2, None), (1, 1, Some(0))], [SHORTER, &[B]], all);
    let one = shown([(4, 1, None), (1, 1, Some(0))], [REPLACED, &[B]], all);
    let none = shown([(4, 0, None), (1, 1, Some(0))], [OPENED, &[B]], all);
    let back = shown([(4, 0, Some(0)), (1, 1, Some(0))], [OPENED, &[B]], all);
    vec![
        turn(save(0, b"", 9), (0, 9), b"A=+A5E-.!", &saved, [true, true]),
        turn(of(0, Turn::Undo), (0, 4), b"", &undone, [false, true]),
        turn(replace(0, 0, 1, &[]), (0, 3), b"", &shorter, [false, true]),
        turn(of(1, Turn::Undo), (0, 2), b"", &bottom, [false, false]),
        turn(of(1, Turn::Undo), (13, 0), b"", &bottom, [false, false]),
        turn(save(1, b"a", 0), (15, 0), b"", &bottom, [false, false]),
        turn(save(1, b"ab", 2), (0, 2), b"ab", &arrived, [false, true]),
        turn(replace(1, 0, 1, &[]), (0, 1), b"", &closed, [false, false]),
        turn(of(2, Turn::Undo), (20, 0), b"", &closed, [false, false]),
        turn(of(0, Turn::Undo), (0, 4), b"", &one, [false, false]),
        turn(of(0, Turn::Undo), (0, 4), b"", &none, [false, false]),
        turn(save(0, P2, 9), (0, 9), P2, &back, [true, false]),
    ]
}

/// Sound benches, each with a step that stands and one that is undone; bench 0 is as it was saved, and bench 1 has no
/// mark. The text buffers have room for two cells and for one more, and the history for three words.
fn edited() -> State {
    let records: &[&[u32]] = &[EQUALS, APPENDED, BANG, A_OFF];
    shown([(4, 1, Some(1)), (3, 1, None)], [REPLACED, ABC], records).state([6, 4], 24)
}

/// The sound benches with these changes.
fn with(changes: &[Change]) -> State {
    let mut state = edited();
    changes.iter().for_each(|change| change.make(&mut state));
    state
}

/// Changes that leave the benches not sound, each with the reason.
const NOT_SOUND: [(&str, &[Change]); 39] = [
    ("a number of no kind on bench 0", &[Change::Kind(0, 3)]),
    ("a number of no kind on bench 1", &[Change::Kind(1, u32::MAX)]),
    ("an opening length of bench 0 that does not lead to its length", &[Change::Opening(0, 5)]),
    ("an opening length of bench 1 that its step lies beyond", &[Change::Opening(1, 1)]),
    ("an opening length over the text buffer", &[Change::Opening(1, 5)]),
    ("a length over the text buffer of bench 0", &[Change::Length(0, 7)]),
    ("a length over the text buffer of bench 1", &[Change::Length(1, 5)]),
    ("a length of bench 0 that is not reached", &[Change::Length(0, 5)]),
    ("a length of bench 1 that is not reached", &[Change::Length(1, 4)]),
    ("more words used than there are", &[Change::Used(25)]),
    ("the largest number of words used", &[Change::Used(usize::MAX)]),
    ("a last record cut short", &[Change::Used(20)]),
    ("a word after the last record", &[Change::Used(22)]),
    ("a record that is used no more", &[Change::Used(16)]),
    ("a first word of 2", &[Change::Word(0, 2)]),
    ("a second record of bench 2", &[Change::Word(6, 2)]),
    ("an undone record of bench 3", &[Change::Word(11, 3)]),
    ("a last record of bench FFFFFFFF", &[Change::Word(16, u32::MAX)]),
    ("a first word that is a bench if it is cut off at 8 bits", &[Change::Word(6, 257)]),
    ("a step of bench 1 that is said to be of bench 0", &[Change::Word(6, 0)]),
    ("a step of bench 0 that is said to be of bench 1", &[Change::Word(0, 1)]),
    ("more standing steps than records of bench 0", &[Change::Standing(0, 3)]),
    ("more standing steps than records of bench 1", &[Change::Standing(1, 3)]),
    ("as many standing steps as there are records of both", &[Change::Standing(0, 4)]),
    ("the largest number of standing steps", &[Change::Standing(1, usize::MAX)]),
    ("standing steps that are right if cut off at 32 bits", &[Change::Standing(0, (1 << 32) + 1)]),
    ("standing steps that lead to another length", &[Change::Standing(0, 2)]),
    ("no standing step, and the length of one", &[Change::Standing(1, 0)]),
    ("a mark over the records of bench 0", &[Change::Saved(0, Some(3))]),
    ("a mark over the records of bench 1", &[Change::Saved(1, Some(3))]),
    ("the largest mark", &[Change::Saved(0, Some(usize::MAX - 1))]),
    ("a mark of 0 if cut off at 32 bits", &[Change::Saved(1, Some(1 << 32))]),
    ("an undone step beyond the text", &[Change::Word(12, 5)]),
    ("FFFFFFFF cells removed", &[Change::Word(2, u32::MAX)]),
    ("records that do not tile", &[Change::Word(3, 2)]),
    ("a cell past the length of bench 0", &[Change::Cell(0, 4, 1)]),
    ("a cell past the length of bench 1", &[Change::Cell(1, 3, 1)]),
    ("a word past those used", &[Change::Word(21, 1)]),
    ("a last word past those used", &[Change::Word(23, 1)]),
];

/// The question on benches made by hand.
pub fn questions() -> Vec<Question> {
    let not_sound = NOT_SOUND.iter().flat_map(|&(name, changes)| {
        let numbers = [(0, 14), (1, 14), (2, 20)];
        numbers.map(|(bench, number)| question(name, with(changes), bench, (number, 0), false))
    });
    let on_sound = |name, changes: &[Change], bench, unchanged| question(name, with(changes), bench, (0, 0), unchanged);
    let over = |texts: [usize; 2], words| {
        let state = edited();
        State { texts: texts.map(|cells| vec![0; cells]), history: vec![0; words], ..state }
    };
    let others = [
        on_sound("sound benches", &[], 0, true),
        on_sound("sound benches", &[], 1, false),
        on_sound("a mark at an undone step", &[Change::Saved(0, Some(2))], 0, false),
        on_sound("a mark at the standing steps of bench 1", &[Change::Saved(1, Some(1))], 1, true),
        on_sound("no mark on bench 0", &[Change::Saved(0, None)], 0, false),
        on_sound("no step of bench 0 stands, and none was saved", &NOTHING_SAVED, 0, true),
        on_sound("no step of bench 0 stands, and none was saved", &NOTHING_SAVED, 1, false),
        question("sound benches", edited(), 2, (20, 0), false),
        question("sound benches", edited(), usize::MAX, (20, 0), false),
        question("sound benches", edited(), 1 << 32, (20, 0), false),
        question("a text buffer of bench 0 over the limit", over([LIMIT + 1, 4], 24), 2, (16, LIMIT), false),
        question("a text buffer of bench 1 over the limit", over([6, LIMIT + 1], 24), 0, (16, LIMIT), false),
        question("a history over the limit", over([6, 4], LIMIT + 1), 1, (16, LIMIT), false),
        question("buffers at the limit, and not sound", over([LIMIT; 2], LIMIT), 1, (14, 0), false),
        question("buffers at the limit, and no bench", over([LIMIT; 2], LIMIT), 3, (20, 0), false),
    ];
    not_sound.chain(others).collect()
}

/// The step of bench 0 leaves the length as it was.
const NOTHING_SAVED: [Change; 2] = [Change::Standing(0, 0), Change::Saved(0, Some(0))];

fn question(
    name: &'static str,
    state: State,
    bench: usize,
    (number, place): (u32, usize),
    unchanged: bool,
) -> Question {
    Question { name, state, bench, asked: Asked { answer: Answer { number, place }, unchanged } }
}

/// Calls of benches made by hand, sound and not.
pub fn judged() -> Vec<Judged> {
    let not_sound = NOT_SOUND.iter().flat_map(|&(name, changes)| {
        let calls = [of(0, Turn::Undo), of(1, Turn::Redo), replace(1, 0, 0, &[]), save(0, P2, 9)];
        let judged = calls.map(|call| judge(name, with(changes), call, 14, 0));
        judged.into_iter().chain([judge(name, with(changes), replace(2, 0, 0, &[]), 20, 0)])
    });
    not_sound.chain(openings()).chain(sound_benches()).chain(replacements()).collect()
}

fn judge(name: &'static str, state: State, call: Call, number: u32, place: usize) -> Judged {
    Judged { name, state, call, answer: Answer { number, place } }
}

/// Opens in buffers of six and four cells: all of bench 0's refusals come before bench 1's.
fn openings() -> Vec<Judged> {
    let opened = |name, call, number, place| judge(name, edited(), call, number, place);
    vec![
        opened("both are read", open([1, 2], b"abc", b"ab"), 0, 5),
        opened("both are empty", open([0, 0], b"", b""), 0, 0),
        opened("a fault in each, the second's earlier", open([1, 2], b"abc~", b"\x1B"), 3, 3),
        opened("no room for the first, and a fault in the second", open([1, 2], b"abcdefg", b"\x80"), 9, 7),
        opened("a fault in the second", open([1, 2], b"abc", b"\x1B"), 7, 1),
        opened("no room for the second", open([1, 2], b"abc", b"abcde"), 9, 5),
        opened("a number of no kind for the first", open([3, 0], b"~", b"~"), 14, 0),
        opened("a number of no kind for the second", open([0, 3], b"~", b"~"), 14, 0),
        opened("too long a first text, and no kind", open([3, 0], &vec![0x80; LIMIT + 1], b""), 16, LIMIT),
        opened("too long a second text, and no kind", open([3, 0], b"", &vec![0x80; LIMIT + 1]), 16, LIMIT),
        opened("too long a second text, and a fault in the first", open([0, 0], b"~", &vec![0; LIMIT + 1]), 3, 0),
        opened("too long a second text", open([0, 0], b"a", &vec![0x80; LIMIT + 1]), 16, LIMIT),
    ]
}

/// Undo, redo and save on sound benches.
fn sound_benches() -> Vec<Judged> {
    let on_sound = |name, call, number, place| judge(name, edited(), call, number, place);
    let nothing_stands = || with(&NOTHING_SAVED);
    let all_stand = || with(&[Change::Standing(1, 2), Change::Length(1, 2), Change::Cell(1, 2, 0)]);
    vec![
        on_sound("sound benches", of(0, Turn::Undo), 0, 4),
        on_sound("sound benches", of(1, Turn::Undo), 0, 2),
        on_sound("sound benches", of(0, Turn::Redo), 0, 5),
        on_sound("sound benches", of(1, Turn::Redo), 0, 2),
        on_sound("no such bench", of(2, Turn::Undo), 20, 0),
        on_sound("no such bench", of(usize::MAX, Turn::Redo), 20, 0),
        on_sound("no such bench", save(1 << 32, P2, 9), 20, 0),
        on_sound("no such bench, and a cell that is not writable", replace(3, 9, 9, &[u32::MAX]), 20, 0),
        on_sound("no such bench, and too long a list", replace(3, 9, 9, &vec![0; LIMIT + 1]), 16, LIMIT),
        on_sound("a save of bench 0", save(0, b"~", 8), 0, 8),
        on_sound("a save of bench 0 with too little room", save(0, b"~", 7), 9, 8),
        on_sound("a save of bench 1", save(1, b"~", 3), 0, 3),
        on_sound("a save of bench 1 with too little room", save(1, b"~", 2), 9, 3),
        judge("no step of bench 0 stands", nothing_stands(), of(0, Turn::Undo), 13, 0),
        judge("no step of bench 0 stands", nothing_stands(), save(0, P2, 9), 15, 0),
        judge("no step of bench 0 stands", nothing_stands(), save(0, b"A=+A5E.", 7), 0, 7),
        judge("no step of bench 0 stands", nothing_stands(), save(1, b"", 3), 0, 3),
        judge("all steps of bench 1 stand", all_stand(), of(1, Turn::Redo), 13, 0),
        judge("all steps of bench 1 stand", all_stand(), of(0, Turn::Redo), 0, 5),
    ]
}

/// Replacements on sound benches, in the order of the numbers. Less what the caller has undone, sixteen words are used.
fn replacements() -> Vec<Judged> {
    let on_sound = |name, call, number, place| judge(name, edited(), call, number, place);
    vec![
        on_sound("nothing removed and nothing added", replace(0, 4, 0, &[]), 0, 4),
        on_sound("a history that is just full, by bench 0", replace(0, 0, 2, &[0x61; 2]), 0, 4),
        on_sound("a history that is just full, by bench 1", replace(1, 0, 2, &[A; 2]), 0, 3),
        on_sound("a place beyond the text of bench 0", replace(0, 5, 0, &[65_536]), 11, 4),
        on_sound("a place within the text of bench 0 alone", replace(1, 4, 0, &[A]), 11, 3),
        on_sound("a sum that is right if cut off", replace(1, 2, usize::MAX, &[]), 11, 3),
        on_sound("a cell of the other's kind", replace(0, 0, 0, &[0x61, A]), 10, 1),
        on_sound("a cell of the other's kind, and no room", replace(1, 0, 0, &[A, A, 0x61]), 10, 2),
        on_sound("no room on bench 1, and no words", replace(1, 0, 3, &[A; 5]), 9, 5),
        on_sound("no room on bench 0", replace(0, 0, 0, &[0x61; 3]), 9, 7),
        on_sound("no words for bench 0", replace(0, 0, 3, &[0x61; 2]), 12, 25),
        on_sound("no words for bench 1", replace(1, 0, 3, &[A; 2]), 12, 25),
    ]
}
