//! The calls of both benches.

use super::{name, on_both_sides, WHAT};
use crate::calls::benches::{limit, seeded, List, Move, Sort};
use crate::checks::benches::expect_statuses;
use crate::guarded::{Guarded, Side};
use crate::lent::filled;
use crate::library::benches as library;
use crate::report::{Report, Statuses};
use crate::second::benches::{Benches, Call, Left, State, Turn};
use crate::second::Answer;
use crate::settings::Settings;
use crate::trial::try_all;

/// Memory for all that can be lent to a call.
struct Memory {
    texts: [Guarded; 2],
    history: Guarded,
    cells: Guarded,
    arrived: [Guarded; 2],
    output: Guarded,
}

/// The functions that a list of calls is made of, and the sort of each.
pub const FUNCTIONS: [(&str, Sort); 5] = [
    (library::OPEN, Sort::Open),
    (library::REPLACE, Sort::Replace),
    (library::UNDO, Sort::Undo),
    (library::REDO, Sort::Redo),
    (library::SAVE, Sort::Save),
];

pub fn run(report: &mut Report, Settings { seed, rounds }: Settings) {
    let mut memory = Memory::new();
    for (function, sort) in FUNCTIONS {
        report.check(&name(function), WHAT, |statuses| {
            try_all(seeded::alone(seed, sort, rounds), |list| memory.follow(list, statuses))
        });
    }
    report.check(&name(library::UNCHANGED), WHAT, |statuses| {
        try_all(seeded::states(seed, rounds), |list| memory.ask(&list.start, statuses))
    });
    let what = "lists of calls with as much as can be lent, and with more, in guarded memory";
    report
        .check(&name("benches-limit"), what, |statuses| try_all(limit::lists(), |list| memory.follow(list, statuses)));
    expect_statuses(report);
}

impl Memory {
    fn new() -> Memory {
        let [first, second, history, cells, arrived, other, output] = std::array::from_fn(|_| Guarded::new());
        Memory { texts: [first, second], history, cells, arrived: [arrived, other], output }
    }

    /// Makes the calls of a list, and asks the question after each.
    fn follow(&mut self, list: &List, statuses: &mut Statuses) -> Result<(), String> {
        let mut state = list.start.clone();
        for (number, item) in (1..).zip(&list.moves) {
            match item {
                Move::Change(change) => change.make(&mut state),
                Move::Call(call) => {
                    let after = |difference| format!("after {number}, {difference}");
                    let left = on_both_sides(|side| self.make(&state, call, side)).map_err(after)?;
                    statuses.count(library::name(call), left.answer.number);
                    state = left.state;
                    self.ask(&state, statuses).map_err(after)?;
                }
            }
        }
        Ok(())
    }

    /// Asks the question of both benches and of none, to which all buffers are lent to be read.
    fn ask(&mut self, state: &State, statuses: &mut Statuses) -> Result<(), String> {
        for bench in 0..3 {
            let (answer, _): (Answer, u32) = on_both_sides(|side| {
                let (texts, history) = self.lend_to_read(state, side);
                library::ask(state.benches, bench, texts, history)
            })?;
            statuses.count(library::UNCHANGED, answer.number);
        }
        Ok(())
    }

    /// Lends both text buffers and the history to be read.
    fn lend_to_read(&mut self, state: &State, side: Side) -> ([&[u32]; 2], &[u32]) {
        let [first, second] = &mut self.texts;
        let texts = [first.lend_to_read(&state.texts[0], side), second.lend_to_read(&state.texts[1], side)];
        (texts, self.history.lend_to_read(&state.history, side))
    }

    /// Makes a call: what it has no business to write to is lent to be read.
    fn make(&mut self, state: &State, call: &Call, side: Side) -> Left {
        let (answer, benches) = match call {
            Call::Of { bench, turn: Turn::Save { arrived, room } } => self.save(state, *bench, arrived, *room, side),
            _ => self.edit(state, call, side),
        };
        let texts = [0, 1].map(|bench| self.texts[bench].contents(state.texts[bench].len(), side));
        let history = self.history.contents(state.history.len(), side);
        Left { answer, state: State { benches, texts, history }, output: self.output.contents(call.room(), side) }
    }

    fn save(&mut self, state: &State, bench: usize, bytes: &[u8], room: usize, side: Side) -> (Answer, Benches) {
        let Memory { texts: [first, second], history, arrived: [arrived, _], output, .. } = self;
        let texts = [first.lend_to_read(&state.texts[0], side), second.lend_to_read(&state.texts[1], side)];
        let history = history.lend_to_read(&state.history, side);
        let bytes = arrived.lend_to_read(bytes, side);
        library::save(state.benches, bench, texts, history, bytes, output.lend(&filled(room), side))
    }

    fn edit(&mut self, state: &State, call: &Call, side: Side) -> (Answer, Benches) {
        let Memory { texts: [first, second], history, cells, arrived: [arrived, other], .. } = self;
        let State { benches, texts, history: words } = state;
        let texts = [first.lend(&texts[0], side), second.lend(&texts[1], side)];
        match call {
            Call::Open { kinds, arrived: [bytes, others] } => {
                let bytes = [arrived.lend_to_read(bytes, side), other.lend_to_read(others, side)];
                library::open(*kinds, bytes, texts, history.lend(words, side))
            }
            Call::Of { bench, turn: Turn::Replace { place, count, cells: added } } => {
                let added = cells.lend_to_read(added, side);
                library::replace(*benches, *bench, (*place, *count), added, texts, history.lend(words, side))
            }
            Call::Of { bench, turn: Turn::Undo } => {
                library::undo(*benches, *bench, texts, history.lend_to_read(words, side))
            }
            Call::Of { bench, turn: Turn::Redo } => {
                library::redo(*benches, *bench, texts, history.lend_to_read(words, side))
            }
            Call::Of { .. } => panic!("no edit of a bench"),
        }
    }
}
