//! Lists of calls of both benches, and pairs of runs.

mod draft;
pub mod harm;
pub mod limit;
mod made;
pub mod pairs;
pub mod seeded;

use std::fmt::{self, Display, Formatter};
use std::ops::Range;

use super::show_mark;
use crate::lent::filled;
use crate::second::benches::{Bench, Benches, Call, State};
use crate::trial::{quote, show, without, Input};

/// Both benches with their buffers, the calls that are made of them, and changes that are made to them between the
/// calls.
#[derive(Clone)]
pub struct List {
    pub start: State,
    pub moves: Vec<Move>,
}

#[derive(Clone)]
pub enum Move {
    Call(Call),
    Change(Change),
}

/// What a call is made for.
#[derive(Clone, Copy)]
pub enum Sort {
    Open,
    Replace,
    Undo,
    Redo,
    Save,
}

/// A change that no call makes: to a bench, or to what both have.
#[derive(Clone, Copy)]
pub enum Change {
    Kind(usize, u32),
    Opening(usize, usize),
    Length(usize, usize),
    Standing(usize, usize),
    Saved(usize, Option<usize>),
    Used(usize),
    /// A cell of a text buffer.
    Cell(usize, usize, u32),
    /// A word of the history.
    Word(usize, u32),
}

impl Change {
    pub fn make(self, state: &mut State) {
        let State { benches: Benches { each, used }, texts, history } = state;
        match self {
            Change::Kind(bench, kind) => each[bench].kind = kind,
            Change::Opening(bench, opening) => each[bench].opening = opening,
            Change::Length(bench, length) => each[bench].length = length,
            Change::Standing(bench, standing) => each[bench].standing = standing,
            Change::Saved(bench, saved) => each[bench].saved = saved,
            Change::Used(words) => *used = words,
            Change::Cell(bench, index, cell) => texts[bench][index] = cell,
            Change::Word(index, word) => history[index] = word,
        }
    }
}

/// Buffers of so many cells and words that nothing was opened in yet.
pub fn blank(cells: [usize; 2], words: usize) -> State {
    let bench = Bench { kind: 0, opening: 0, length: 0, standing: 0, saved: None };
    let benches = Benches { each: [bench; 2], used: 0 };
    State { benches, texts: cells.map(filled), history: filled(words) }
}

/// A list of calls alone.
pub fn calls(start: State, calls: impl IntoIterator<Item = Call>) -> List {
    List { start, moves: calls.into_iter().map(Move::Call).collect() }
}

impl Input for List {
    fn length(&self) -> usize {
        self.moves.len()
    }

    fn without(&self, parts: Range<usize>) -> List {
        List { start: self.start.clone(), moves: without(&self.moves, parts) }
    }

    fn show(&self) -> String {
        let moves: String = (1..).zip(&self.moves).map(|(number, item)| format!("\n    {number}. {item}")).collect();
        format!("{}{moves}", show_start(&self.start))
    }
}

/// A state: buffers that nothing was opened in yet are named by their length.
fn show_start(state: &State) -> String {
    let State { benches, texts: [first, second], history } = state;
    if *state == blank([first.len(), second.len()], history.len()) {
        let lengths = (first.len(), second.len(), history.len());
        return format!("text buffers of {} and {} cells and a history of {} words", lengths.0, lengths.1, lengths.2);
    }
    format!("{benches}, texts {} and {}, and history {}", show(first), show(second), show(history))
}

impl Display for Bench {
    fn fmt(&self, f: &mut Formatter) -> fmt::Result {
        let Bench { kind, opening, length, standing, saved } = self;
        write!(f, "kind {kind}, opening length {opening}, length {length}, {standing} steps standing, ")?;
        write!(f, "{}", show_mark(*saved))
    }
}

impl Display for Benches {
    fn fmt(&self, f: &mut Formatter) -> fmt::Result {
        let Benches { each: [first, second], used } = self;
        write!(f, "bench 0 with {first}, bench 1 with {second}, {used} words used")
    }
}

impl Display for Move {
    fn fmt(&self, f: &mut Formatter) -> fmt::Result {
        match self {
            Move::Call(call) => write!(f, "{call}"),
            Move::Change(change) => write!(f, "(changed by hand: {change})"),
        }
    }
}

impl Display for Call {
    fn fmt(&self, f: &mut Formatter) -> fmt::Result {
        match self {
            Call::Open { kinds: [kind, other], arrived: [first, second] } => {
                write!(f, "open as kinds {kind} and {other} {} and {}", quote(first), quote(second))
            }
            Call::Of { bench, turn } => write!(f, "bench {bench}: {turn}"),
        }
    }
}

impl Display for Change {
    fn fmt(&self, f: &mut Formatter) -> fmt::Result {
        match self {
            Change::Kind(bench, kind) => write!(f, "the kind of bench {bench} is {kind}"),
            Change::Opening(bench, opening) => write!(f, "the opening length of bench {bench} is {opening}"),
            Change::Length(bench, length) => write!(f, "the length of bench {bench} is {length}"),
            Change::Standing(bench, standing) => write!(f, "{standing} steps of bench {bench} stand"),
            Change::Saved(bench, saved) => write!(f, "bench {bench} has {}", show_mark(*saved)),
            Change::Used(used) => write!(f, "{used} words are used"),
            Change::Cell(bench, index, cell) => write!(f, "cell {index} of text buffer {bench} is {cell:08X}"),
            Change::Word(index, word) => write!(f, "word {index} of the history is {word:08X}"),
        }
    }
}
