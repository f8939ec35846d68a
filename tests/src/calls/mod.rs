//! Lists of calls to try the page on, and page files.

pub mod benches;
mod draft;
pub mod files;
pub mod limit;
mod made;
pub mod marks;
pub mod seeded;
pub mod squeezes;
mod view;

use std::fmt::{self, Display, Formatter};
use std::ops::Range;

use crate::lent::filled;
use crate::second::page::{Page, State};
use crate::second::{Call, Kind};
use crate::trial::{quote, show, without, Input};

/// A page with its buffers, the calls that are made on it, changes that are made to it between the calls, and readings
/// of the files that it was kept in.
#[derive(Clone)]
pub struct List {
    pub start: State,
    pub moves: Vec<Move>,
}

#[derive(Clone)]
pub enum Move {
    Call(Call),
    Change(Change),
    Read(Reading),
}

/// What a call is made for.
#[derive(Clone, Copy)]
pub enum Sort {
    Open(Kind),
    Replace,
    Undo,
    Redo,
    Save,
    Keep,
    Squeeze,
}

/// A change that no call makes.
#[derive(Clone, Copy)]
pub enum Change {
    Kind(u32),
    Opening(usize),
    Length(usize),
    Used(usize),
    Done(usize),
    Saved(Option<usize>),
    /// A cell of the text buffer.
    Cell(usize, u32),
    /// A word of the history.
    Word(usize, u32),
}

impl Change {
    pub fn make(self, state: &mut State) {
        match self {
            Change::Kind(kind) => state.page.kind = kind,
            Change::Opening(opening) => state.page.opening = opening,
            Change::Length(length) => state.page.length = length,
            Change::Used(used) => state.page.used = used,
            Change::Done(done) => state.page.done = done,
            Change::Saved(saved) => state.page.saved = saved,
            Change::Cell(index, cell) => state.text[index] = cell,
            Change::Word(index, word) => state.history[index] = word,
        }
    }
}

/// A reading of one of the files that were kept before: the last one, or so many before it. It is lent new buffers of
/// these lengths. Accepted, the list goes on with what was read, and else as if nothing was.
#[derive(Clone, Copy)]
pub struct Reading {
    pub before: usize,
    pub arrived: usize,
    pub cells: usize,
    pub words: usize,
}

impl Reading {
    /// The file among those kept, if there is one.
    pub fn file<'a, F>(&self, kept: &'a [F]) -> Option<&'a F> {
        kept.iter().rev().nth(self.before.checked_rem(kept.len())?)
    }

    /// The buffers that it is lent.
    pub fn buffers(&self) -> (State, Vec<u8>) {
        (blank(self.cells, self.words), filled(self.arrived))
    }
}

/// Buffers of so many cells and words that nothing was opened in yet.
pub fn blank(cells: usize, words: usize) -> State {
    let page = Page { kind: 0, opening: 0, length: 0, used: 0, done: 0, saved: None };
    State { page, text: filled(cells), history: filled(words) }
}

/// A list of calls alone.
pub fn calls(start: State, calls: impl IntoIterator<Item = Call>) -> List {
    List { start, moves: calls.into_iter().map(Move::Call).collect() }
}

/// A text opened in a buffer of so many cells; then an undo and a save of what was or was not opened.
pub fn opening(kind: Kind, arrived: &[u8], cells: usize) -> List {
    let open = Call::Open { kind, arrived: arrived.to_vec() };
    let save = Call::Save { arrived: arrived.to_vec(), room: arrived.len() };
    calls(blank(cells, cells % 4), [open, Call::Undo, save])
}

impl Input for List {
    fn length(&self) -> usize {
        self.moves.len()
    }

    fn without(&self, parts: Range<usize>) -> List {
        List { start: self.start.clone(), moves: without(&self.moves, parts) }
    }

    fn show(&self) -> String {
        let moves: String = (1..).zip(&self.moves).map(|(number, item)| format!("\n    {number}. {item}")).collect();
        format!("{}{moves}", show_start(&self.start))
    }
}

/// A state: buffers that nothing was opened in yet are named by their length.
fn show_start(state: &State) -> String {
    let State { page, text, history } = state;
    if *state == blank(text.len(), history.len()) {
        return format!("a text buffer of {} cells and a history of {} words", text.len(), history.len());
    }
    format!("a page with {page}, text {} and history {}", show(text), show(history))
}

impl Display for Page {
    fn fmt(&self, f: &mut Formatter) -> fmt::Result {
        let Page { kind, opening, length, used, done, saved } = self;
        write!(f, "kind {kind}, opening length {opening}, length {length}, {used} words used, {done} done, ")?;
        write!(f, "{}", show_mark(*saved))
    }
}

fn show_mark(saved: Option<usize>) -> String {
    saved.map_or("no mark".to_string(), |words| format!("the mark at {words}"))
}

impl Display for Move {
    fn fmt(&self, f: &mut Formatter) -> fmt::Result {
        match self {
            Move::Call(call) => write!(f, "{call}"),
            Move::Change(change) => write!(f, "(changed by hand: {change})"),
            Move::Read(reading) => write!(f, "{reading}"),
        }
    }
}

impl Display for Call {
    fn fmt(&self, f: &mut Formatter) -> fmt::Result {
        match self {
            Call::Open { kind, arrived } => write!(f, "open as {} {}", kind.name(), quote(arrived)),
            Call::Replace { place, count, cells } => write!(f, "replace {count} at {place} by {}", show(cells)),
            Call::Undo => write!(f, "undo"),
            Call::Redo => write!(f, "redo"),
            Call::Save { arrived, room } => write!(f, "save, lent {} and room for {room}", quote(arrived)),
            Call::Keep { arrived, room } => write!(f, "keep, lent {} and room for {room}", quote(arrived)),
            Call::Squeeze { steps, work } => write!(f, "squeeze {steps}, with {work} words to work in"),
        }
    }
}

impl Display for Reading {
    fn fmt(&self, f: &mut Formatter) -> fmt::Result {
        let Reading { before, arrived, cells, words } = self;
        write!(f, "read the file kept last but {before}, lent {arrived} bytes, {cells} cells and {words} words")
    }
}

impl Display for Change {
    fn fmt(&self, f: &mut Formatter) -> fmt::Result {
        match self {
            Change::Kind(kind) => write!(f, "the kind is {kind}"),
            Change::Opening(opening) => write!(f, "the opening length is {opening}"),
            Change::Length(length) => write!(f, "the length is {length}"),
            Change::Used(used) => write!(f, "{used} words are used"),
            Change::Done(done) => write!(f, "{done} words are done"),
            Change::Saved(saved) => write!(f, "{}", show_mark(*saved)),
            Change::Cell(index, cell) => write!(f, "cell {index} of the text buffer is {cell:08X}"),
            Change::Word(index, word) => write!(f, "word {index} of the history is {word:08X}"),
        }
    }
}

#[cfg(test)]
mod tests {
    use super::*;

    #[test]
    fn a_list_can_be_read() {
        let list = opening(Kind::Utf7Body, b"a\n", 3);
        let start = "a text buffer of 3 cells and a history of 3 words";
        let shown = format!(
            "{start}\n    1. open as utf7-body \"a\\n\"\n    2. undo\n    3. save, lent \"a\\n\" and room for 2"
        );
        assert_eq!(list.show(), shown);
        assert_eq!(list.without(0..3).show(), start);
    }
}
