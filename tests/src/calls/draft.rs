//! A list of calls in the making. What is chosen next depends on the state that the second program says is reached.

use super::view::{self, changed, changed_index, room, View};
use super::{Change, List, Move, Reading, Sort};
use crate::rng::Rng;
use crate::second::page::{self, mark_of, Page, State};
use crate::second::page_file::{self, Content, FORM_1, FORM_2};
use crate::second::squeeze::squeeze;
use crate::second::{Call, Kind};

#[derive(Clone)]
pub struct Draft {
    pub list: List,
    /// The state after the list.
    pub state: State,
    /// The kind that cells and bytes are chosen for.
    kind: Kind,
    /// The bytes that are most often lent as arrived.
    pub arrived: Vec<u8>,
    /// The files that it was kept in, each with the state that it was then.
    kept: Vec<(Vec<u8>, State)>,
}

/// The sorts of calls that are made on what was opened.
const SORTS: [Sort; 6] = [Sort::Replace, Sort::Undo, Sort::Redo, Sort::Save, Sort::Keep, Sort::Squeeze];

impl Draft {
    pub fn new(start: State, kind: Kind, arrived: Vec<u8>) -> Draft {
        Draft { state: start.clone(), list: List { start, moves: Vec::new() }, kind, arrived, kept: Vec::new() }
    }

    /// Opens the arrived bytes.
    pub fn add_open(&mut self) {
        self.add_call(Call::Open { kind: self.kind, arrived: self.arrived.clone() });
    }

    /// Adds one to four calls of one sort; or some that lead away from what was saved, most often for good.
    pub fn add_calls(&mut self, rng: &mut Rng) {
        match rng.below(19) {
            0..=6 => self.add_some(rng, Sort::Replace, 3),
            7..=9 => self.add_some(rng, Sort::Undo, 4),
            10..=12 => self.add_some(rng, Sort::Redo, 3),
            13..=15 => self.add_some(rng, Sort::Save, 2),
            16 => self.add_some(rng, Sort::Squeeze, 1),
            _ => [Sort::Save, Sort::Undo, Sort::Replace].into_iter().for_each(|sort| self.add_some(rng, sort, 1)),
        }
    }

    /// Adds calls of this sort, at least one and at most so many.
    pub fn add_some(&mut self, rng: &mut Rng, sort: Sort, most: usize) {
        for _ in 0..rng.between(1, most) {
            self.add_call(self.call(rng, sort));
        }
    }

    /// Adds calls, a keeping, or a reading of what was kept before.
    pub fn add_actions(&mut self, rng: &mut Rng) {
        match rng.below(8) {
            0..=1 => self.add_call(self.keep(rng)),
            2..=3 if !self.kept.is_empty() => self.add_reading(rng),
            _ => self.add_calls(rng),
        }
    }

    /// Adds one call of each sort; those that are refused leave the state to the next.
    pub fn add_each(&mut self, rng: &mut Rng) {
        let first = rng.below(SORTS.len());
        for sort in SORTS.into_iter().cycle().skip(first).take(SORTS.len()) {
            self.add_call(self.call(rng, sort));
        }
    }

    /// One call of this sort on the state that is reached; what is opened often just fits the text buffer, or does not.
    pub fn alone(self, rng: &mut Rng, sort: Sort) -> List {
        let call = self.call(rng, sort);
        let mut start = self.state;
        if let Call::Open { kind, arrived } = &call {
            if let (true, Ok(cells)) = (rng.one_in(2), kind.read(arrived)) {
                start.text.resize((cells.len() + rng.below(2)).saturating_sub(rng.below(2)), 7);
            }
        }
        List { start, moves: vec![Move::Call(call)] }
    }

    fn call(&self, rng: &mut Rng, sort: Sort) -> Call {
        match sort {
            Sort::Open(kind) => Call::Open { kind, arrived: self.view().lent_bytes(rng) },
            Sort::Replace => self.view().replace(rng),
            Sort::Undo => Call::Undo,
            Sort::Redo => Call::Redo,
            Sort::Save => self.save(rng),
            Sort::Keep => self.keep(rng),
            Sort::Squeeze => self.squeeze(rng),
        }
    }

    fn add_call(&mut self, call: Call) {
        let left = page::left(&self.state, &call, &vec![0; call.room()]);
        self.kept.extend(left.file(&call).map(|file| (file, left.state.clone())));
        self.state = left.state;
        self.list.moves.push(Move::Call(call));
    }

    /// Adds a change that no call makes.
    pub fn add_change(&mut self, rng: &mut Rng) {
        self.change_by(self.change(rng));
    }

    pub fn change_by(&mut self, change: Change) {
        change.make(&mut self.state);
        self.list.moves.push(Move::Change(change));
    }

    fn view(&self) -> View<'_> {
        let State { page, text, history } = &self.state;
        View {
            kind: self.kind,
            arrived: &self.arrived,
            text: text.get(..page.length).unwrap_or(text),
            cells: text.len(),
            words: history.len().saturating_sub(page.done.saturating_add(3)),
        }
    }

    fn save(&self, rng: &mut Rng) -> Call {
        self.view().save(rng, |arrived| page::save(&self.state, arrived))
    }

    /// A squeeze, most often of some of the steps that stand; with about the words to work in that it needs.
    fn squeeze(&self, rng: &mut Rng) -> Call {
        let standing = page::sound(&self.state).map_or(4, |sound| sound.standing.len());
        let steps = match rng.below(12) {
            0 => rng.pick(&[0, 1, standing + 1, 1 << 32, (1 << 32) + standing, usize::MAX]),
            1..=4 => standing,
            _ => rng.below(standing + 2),
        };
        let needed = squeeze(&self.state, steps).map_or(20, |squeezed| squeezed.record.len());
        Call::Squeeze { steps, work: room(rng, needed) }
    }

    /// A keeping, most often with the bytes that were opened; on pages made by hand often with others that are read as
    /// as many cells.
    fn keep(&self, rng: &mut Rng) -> Call {
        let arrived = match rng.below(8) {
            0..=4 => self.arrived.clone(),
            5 if self.state.page.opening <= 1_000 => vec![b'a'; self.state.page.opening],
            _ => self.view().lent_bytes(rng),
        };
        let needed = page_file::keep(&self.state, &arrived).map_or(200, |file| file.len());
        Call::Keep { arrived, room: room(rng, needed) }
    }

    /// Adds a reading into buffers as long as those that were kept, longer ones, or ones that just hold the lists or do
    /// not.
    fn add_reading(&mut self, rng: &mut Rng) {
        let before = rng.below(self.kept.len());
        let (file, state) = &self.kept[self.kept.len() - 1 - before];
        let Content { arrived, text, history, .. } = page_file::content(file).expect("a page file");
        let mut length = |list: usize, kept: usize| match rng.below(12) {
            0 => list.saturating_sub(1),
            1..=2 => list,
            3..=7 => kept,
            _ => kept + rng.below(12),
        };
        let (cells, words) = (length(text.len(), state.text.len()), length(history.len(), state.history.len()));
        let reading = Reading { before, arrived: length(arrived.len(), arrived.len()), cells, words };
        let (buffers, room) = reading.buffers();
        let left = page_file::left(file, &buffers, &room);
        if left.answer.number == 0 {
            self.state = left.state;
            self.arrived = arrived;
        }
        self.list.moves.push(Move::Read(reading));
    }

    /// A file of the page as it is, sound or not, with bytes that may not belong to it, now and then in the form that is
    /// not due; where the page says that it has a little more than it has, the rest is zeros.
    pub fn file(&self, rng: &mut Rng) -> Vec<u8> {
        let State { page, text, history } = &self.state;
        let list = |list: &[u32], length: usize| {
            let rest = length.saturating_sub(list.len());
            [&list[..length.min(list.len())], &vec![0; if rest < 20 { rest } else { 0 }]].concat()
        };
        let arrived = match self.keep(rng) {
            Call::Keep { arrived, .. } => arrived,
            _ => Vec::new(),
        };
        let page = Page { kind: page.kind % 3, ..*page };
        let content = Content { page, arrived, text: list(text, page.length), history: list(history, page.used) };
        let form = if rng.one_in(20) { rng.pick(&[FORM_1, FORM_2]) } else { content.form() };
        content.file_in(form)
    }

    fn change(&self, rng: &mut Rng) -> Change {
        let State { page, text, history } = &self.state;
        match rng.below(14) {
            0 => Change::Kind(rng.pick(&[0, 1, 2, 3, 4, 256, 65_536, u32::MAX])),
            1 => Change::Opening(self.number(rng, page.opening)),
            2 => Change::Length(self.number(rng, page.length)),
            3 => Change::Used(self.number(rng, page.used)),
            5..=6 if !text.is_empty() => {
                let index = changed_index(rng, page.length, text.len());
                Change::Cell(index, changed(rng, text[index]))
            }
            7..=11 if !history.is_empty() => {
                let index = changed_index(rng, page.used, history.len());
                Change::Word(index, changed(rng, history[index]))
            }
            12..=13 => Change::Saved(mark_of(self.number(rng, page.saved.unwrap_or(page.done)))),
            _ => Change::Done(self.number(rng, page.done)),
        }
    }

    /// A number to put in the place of one of the page's: near it, one of the others, at the end of a buffer, or far.
    fn number(&self, rng: &mut Rng, number: usize) -> usize {
        let State { page: Page { opening, length, used, done, saved, .. }, text, history } = &self.state;
        let of_page = rng.pick(&[*opening, *length, *used, *done, saved.unwrap_or(0)]);
        let others = [of_page, text.len() + rng.below(2), history.len() + rng.below(2)];
        view::number(rng, number, &others)
    }
}
