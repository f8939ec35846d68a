//! The calls on a page.

use super::{name, on_both_sides, WHAT};
use crate::calls::files::{self, Filed};
use crate::calls::{limit, seeded, List, Move, Sort};
use crate::checks::page::expect_statuses;
use crate::guarded::{Guarded, Side};
use crate::lent::filled;
use crate::library::page as library;
use crate::library::page_file::{self, KEEP, READ};
use crate::library::squeeze::{squeeze, SQUEEZE};
use crate::report::{Report, Statuses};
use crate::rng::Rng;
use crate::second::page::{Left, State};
use crate::second::page_file::FileLeft;
use crate::second::{Answer, Call, Kind};
use crate::settings::Settings;
use crate::trial::try_all;

/// Memory for all that can be lent to a call.
struct Memory {
    text: Guarded,
    history: Guarded,
    cells: Guarded,
    arrived: Guarded,
    output: Guarded,
    file: Guarded,
    work: Guarded,
}

pub fn run(report: &mut Report, settings: Settings) {
    let Settings { seed, rounds } = settings;
    let mut memory = Memory::new();
    for (function, sort) in functions() {
        report.check(&name(function), WHAT, |statuses| {
            try_all(seeded::alone(seed, sort, rounds), |list| memory.follow(list, statuses))
        });
    }
    report.check(&name(library::UNCHANGED), WHAT, |statuses| {
        try_all(seeded::pages(seed, rounds), |list| memory.ask(&list.start, statuses))
    });
    for kind in Kind::ALL {
        let what = "lists of calls with as much as can be lent, and with more, in guarded memory";
        report.check(&name(&format!("page-{}-limit", kind.name())), what, |statuses| {
            try_all(limit::lists(kind), |list| memory.follow(list, statuses))
        });
        expect_statuses(report, kind);
    }
    run_files(report, settings);
}

/// The functions that a list of calls is made of, and the sort of each.
pub fn functions() -> impl Iterator<Item = (&'static str, Sort)> {
    let opens = Kind::ALL.map(|kind| (library::open_name(kind), Sort::Open(kind)));
    let others = [
        (library::REPLACE, Sort::Replace),
        (library::UNDO, Sort::Undo),
        (library::REDO, Sort::Redo),
        (library::SAVE, Sort::Save),
        (KEEP, Sort::Keep),
        (SQUEEZE, Sort::Squeeze),
    ];
    opens.into_iter().chain(others)
}

/// Readings of page files.
fn run_files(report: &mut Report, Settings { seed, rounds }: Settings) {
    // New memory, since what was lent once takes time whenever it is protected.
    let mut memory = Memory::new();
    let mut rng = Rng::new(seed, "files in guarded memory");
    let seeded = (0..rounds).map(|_| {
        let kind = rng.pick(&Kind::ALL);
        files::one(&mut rng, kind)
    });
    report.check(&name(READ), WHAT, |statuses| try_all(seeded, |filed| memory.read(filed, statuses)));
    let what = "files with as much as can be kept, and with more, in guarded memory";
    report.check(&name("page-file-limit"), what, |statuses| {
        let kinds = Kind::ALL.into_iter();
        try_all(kinds.flat_map(files::at_limit), |filed| memory.read(filed, statuses))
    });
    report.expect_statuses(READ, &[0, 9, 14, 15, 16, 18]);
}

impl Memory {
    fn new() -> Memory {
        let [text, history, cells, arrived, output, file, work] = std::array::from_fn(|_| Guarded::new());
        Memory { text, history, cells, arrived, output, file, work }
    }

    /// Makes the calls of a list, and asks the question after each.
    fn follow(&mut self, list: &List, statuses: &mut Statuses) -> Result<(), String> {
        let mut state = list.start.clone();
        for (number, item) in (1..).zip(&list.moves) {
            match item {
                Move::Change(change) => change.make(&mut state),
                // These are tried one by one.
                Move::Read(_) => {}
                Move::Call(call) => {
                    let after = |difference| format!("after {number}, {difference}");
                    let left = on_both_sides(|side| self.make(&state, call, side)).map_err(after)?;
                    statuses.count(library::name(call), left.answer.number);
                    state = left.state;
                    self.ask(&state, statuses).map_err(after)?;
                }
            }
        }
        Ok(())
    }

    /// Asks the question, to which both buffers are lent to be read.
    fn ask(&mut self, state: &State, statuses: &mut Statuses) -> Result<(), String> {
        let Memory { text, history, .. } = self;
        let (answer, _): (Answer, u32) = on_both_sides(|side| {
            library::ask(state.page, text.lend_to_read(&state.text, side), history.lend_to_read(&state.history, side))
        })?;
        statuses.count(library::UNCHANGED, answer.number);
        Ok(())
    }

    /// Reads a page file, which is lent to be read.
    fn read(&mut self, filed: &Filed, statuses: &mut Statuses) -> Result<(), String> {
        let Memory { text, history, arrived, file, .. } = self;
        let (State { text: cells, history: words, .. }, bytes) = filed.buffers();
        let left = on_both_sides(|side| {
            let (answer, page) = page_file::read(
                file.lend_to_read(&filed.file, side),
                arrived.lend(&bytes, side),
                text.lend(&cells, side),
                history.lend(&words, side),
            );
            let (text, history) = (text.contents(cells.len(), side), history.contents(words.len(), side));
            FileLeft { answer, state: State { page, text, history }, arrived: arrived.contents(bytes.len(), side) }
        })?;
        statuses.count(READ, left.answer.number);
        Ok(())
    }

    /// Makes a call: what it has no business to write to is lent to be read.
    fn make(&mut self, state: &State, call: &Call, side: Side) -> Left {
        let Memory { text, history, cells, arrived, output, work, .. } = self;
        let State { page, text: all_cells, history: words } = state;
        let (answer, page) = match call {
            Call::Open { kind, arrived: bytes } => {
                let bytes = arrived.lend_to_read(bytes, side);
                library::open(*kind, bytes, text.lend(all_cells, side), history.lend(words, side))
            }
            Call::Replace { place, count, cells: added } => {
                let added = cells.lend_to_read(added, side);
                library::replace(*page, *place, *count, added, text.lend(all_cells, side), history.lend(words, side))
            }
            Call::Undo => library::undo(*page, text.lend(all_cells, side), history.lend_to_read(words, side)),
            Call::Redo => library::redo(*page, text.lend(all_cells, side), history.lend_to_read(words, side)),
            Call::Save { arrived: bytes, room } => {
                let bytes = arrived.lend_to_read(bytes, side);
                let output = output.lend(&filled(*room), side);
                let (text, history) = (text.lend_to_read(all_cells, side), history.lend_to_read(words, side));
                library::save(*page, text, history, bytes, output)
            }
            Call::Keep { arrived: bytes, room } => {
                let bytes = arrived.lend_to_read(bytes, side);
                let output = output.lend(&filled(*room), side);
                let (text, history) = (text.lend_to_read(all_cells, side), history.lend_to_read(words, side));
                (page_file::keep(*page, text, history, bytes, output), *page)
            }
            Call::Squeeze { steps, work: room } => {
                let work = work.lend(&filled(*room), side);
                squeeze(*page, *steps, text.lend_to_read(all_cells, side), history.lend(words, side), work)
            }
        };
        let state =
            State { page, text: text.contents(all_cells.len(), side), history: history.contents(words.len(), side) };
        Left { answer, state, output: output.contents(call.room(), side), work: work.contents(call.work(), side) }
    }
}
