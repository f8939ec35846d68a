//! A list of calls of both benches in the making. What is chosen next depends on the state that the second program says
//! is reached.

use super::seeded::fitting_both;
use super::{Change, List, Move, Sort};
use crate::calls::view::{self, changed, changed_index, View};
use crate::rng::Rng;
use crate::second::benches::{self, Bench, Benches, Call, Entry, State, Turn};
use crate::second::page::mark_of;
use crate::second::Kind;

#[derive(Clone)]
pub struct Draft {
    pub list: List,
    /// The state after the list.
    pub state: State,
    /// The kinds that cells and bytes are chosen for.
    pub(super) kinds: [Kind; 2],
    /// The bytes that are most often lent as arrived.
    pub(super) arrived: [Vec<u8>; 2],
}

/// The sorts of calls that are made of what was opened.
const SORTS: [Sort; 4] = [Sort::Replace, Sort::Undo, Sort::Redo, Sort::Save];

/// Numbers of no bench; some are of one if they are cut off at 32 bits, at 8 or at one.
const NO_BENCH: [usize; 8] = [2, 3, 256, 257, 1 << 32, (1 << 32) + 1, usize::MAX - 1, usize::MAX];

/// Numbers of no kind.
const NO_KIND: [u32; 5] = [3, 4, 256, 65_536, u32::MAX];

impl Draft {
    pub fn new(start: State, kinds: [Kind; 2], arrived: [Vec<u8>; 2]) -> Draft {
        Draft { state: start.clone(), list: List { start, moves: Vec::new() }, kinds, arrived }
    }

    /// Opens the arrived bytes.
    pub fn add_open(&mut self) {
        self.add_call(Call::Open { kinds: self.kinds.map(Kind::number), arrived: self.arrived.clone() });
    }

    /// Opens other texts, of other kinds, in the same buffers.
    pub fn reopen(&mut self, rng: &mut Rng) {
        let [first, second] = &self.state.texts;
        (self.kinds, self.arrived) = fitting_both(rng, [first.len(), second.len()]);
        self.add_open();
    }

    /// Adds one to four calls of one sort on one bench; or some that lead away from what was saved, most often for
    /// good; or, after steps of both are undone, a replace of one.
    pub fn add_calls(&mut self, rng: &mut Rng) {
        let bench = some_bench(rng);
        match rng.below(20) {
            0..=6 => self.add_some(rng, bench, Sort::Replace, 3),
            7..=9 => self.add_some(rng, bench, Sort::Undo, 4),
            10..=12 => self.add_some(rng, bench, Sort::Redo, 3),
            13..=15 => self.add_some(rng, bench, Sort::Save, 2),
            16..=17 => {
                [Sort::Save, Sort::Undo, Sort::Replace].into_iter().for_each(|sort| self.add_some(rng, bench, sort, 1));
            }
            _ => {
                [0, 1].into_iter().for_each(|bench| self.add_some(rng, bench, Sort::Undo, 3));
                self.add_some(rng, bench, Sort::Replace, 1);
            }
        }
    }

    /// Adds calls of this sort, at least one and at most so many.
    fn add_some(&mut self, rng: &mut Rng, bench: usize, sort: Sort, most: usize) {
        for _ in 0..rng.between(1, most) {
            self.add_call(self.call(rng, bench, sort));
        }
    }

    /// Adds one call of each sort on each bench; those that are refused leave the state to the next.
    pub fn add_each(&mut self, rng: &mut Rng) {
        let first = rng.below(SORTS.len());
        for sort in SORTS.into_iter().cycle().skip(first).take(SORTS.len()) {
            for bench in [0, 1] {
                self.add_call(self.call(rng, bench, sort));
            }
        }
    }

    /// One call of this sort on the state that is reached; what is opened often just fits the text buffers, or does
    /// not.
    pub fn alone(self, rng: &mut Rng, sort: Sort) -> List {
        let bench = some_bench(rng);
        let call = self.call(rng, bench, sort);
        let mut start = self.state;
        if let Call::Open { kinds, arrived } = &call {
            for bench in [0, 1] {
                let reading = Kind::of_number(kinds[bench]).and_then(|kind| kind.read(&arrived[bench]).ok());
                if let (true, Some(cells)) = (rng.one_in(2), reading) {
                    start.texts[bench].resize((cells.len() + rng.below(2)).saturating_sub(rng.below(2)), 7);
                }
            }
        }
        List { start, moves: vec![Move::Call(call)] }
    }

    fn call(&self, rng: &mut Rng, bench: usize, sort: Sort) -> Call {
        let view = self.view(bench % 2);
        let turn = match sort {
            Sort::Open => return self.open(rng),
            Sort::Replace => view.replace(rng),
            Sort::Undo => Turn::Undo,
            Sort::Redo => Turn::Redo,
            Sort::Save => view.save(rng, |arrived| benches::save(&self.state, bench % 2, arrived)),
        };
        Call::Of { bench, turn }
    }

    /// An open, now and then with a number of no kind.
    fn open(&self, rng: &mut Rng) -> Call {
        let mut kinds = self.kinds.map(Kind::number);
        if rng.one_in(12) {
            kinds[rng.below(2)] = rng.pick(&NO_KIND);
        }
        Call::Open { kinds, arrived: [0, 1].map(|bench| self.view(bench).lent_bytes(rng)) }
    }

    pub fn add_call(&mut self, call: Call) {
        self.state = benches::left(&self.state, &call, &vec![0; call.room()]).state;
        self.list.moves.push(Move::Call(call));
    }

    /// Adds a change that no call makes.
    pub fn add_change(&mut self, rng: &mut Rng) {
        self.change_by(self.change(rng));
    }

    pub fn change_by(&mut self, change: Change) {
        change.make(&mut self.state);
        self.list.moves.push(Move::Change(change));
    }

    fn view(&self, bench: usize) -> View<'_> {
        let State { benches, texts, history } = &self.state;
        let text = &texts[bench];
        View {
            kind: self.kinds[bench],
            arrived: &self.arrived[bench],
            text: text.get(..benches.each[bench].length).unwrap_or(text),
            cells: text.len(),
            words: history.len().saturating_sub(self.words_kept(bench).saturating_add(4)),
        }
    }

    /// The words that a replace of this bench keeps.
    fn words_kept(&self, bench: usize) -> usize {
        let Benches { each, used } = self.state.benches;
        let undone = benches::sound(&self.state).map_or(0, |sound| {
            let records = sound.records(bench).into_iter().skip(each[bench].standing);
            records.map(|record| Entry { bench, record }.words().len()).sum()
        });
        used.saturating_sub(undone)
    }

    fn change(&self, rng: &mut Rng) -> Change {
        let State { benches, texts, history } = &self.state;
        let bench = rng.below(2);
        let Bench { opening, length, standing, saved, .. } = benches.each[bench];
        match rng.below(16) {
            0 => Change::Kind(bench, rng.pick(&[[0, 1, 2].as_slice(), &NO_KIND].concat())),
            1 => Change::Opening(bench, self.number(rng, bench, opening)),
            2 => Change::Length(bench, self.number(rng, bench, length)),
            3 => Change::Used(self.number(rng, bench, benches.used)),
            4..=5 if !texts[bench].is_empty() => {
                let index = changed_index(rng, length, texts[bench].len());
                Change::Cell(bench, index, changed(rng, texts[bench][index]))
            }
            6..=11 if !history.is_empty() => {
                let index = changed_index(rng, benches.used, history.len());
                Change::Word(index, changed(rng, history[index]))
            }
            12..=13 => Change::Saved(bench, mark_of(self.number(rng, bench, saved.unwrap_or(standing)))),
            _ => Change::Standing(bench, self.number(rng, bench, standing)),
        }
    }

    /// A number to put in the place of one of a bench's: near it, one of the others, at the end of a buffer, or far.
    fn number(&self, rng: &mut Rng, bench: usize, number: usize) -> usize {
        let State { benches: Benches { each, used }, texts, history } = &self.state;
        let Bench { opening, length, standing, saved, .. } = each[bench];
        let other = each[1 - bench];
        let of_benches = [opening, length, standing, saved.unwrap_or(0), *used, other.length, other.standing];
        let of_benches = rng.pick(&of_benches);
        let others = [of_benches, texts[bench].len() + rng.below(2), history.len() + rng.below(2)];
        view::number(rng, number, &others)
    }
}

/// The number of a bench; now and then one of none.
fn some_bench(rng: &mut Rng) -> usize {
    match rng.below(40) {
        0 => rng.pick(&NO_BENCH),
        number => number % 2,
    }
}
