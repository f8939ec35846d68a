//! Lists of calls with as much as can be lent, and with more.

use super::{blank, calls, List};
use crate::second::page::{Page, State};
use crate::second::{Call, Kind, LIMIT};

/// The byte that the texts are made of, and the cell that it is read as.
const BYTE: u8 = b'a';

fn cell(kind: Kind) -> u32 {
    kind.read(&[BYTE]).expect("a whole text")[0]
}

pub fn lists(kind: Kind) -> impl Iterator<Item = List> {
    let sound = Page::opened(kind, 0);
    let marks = [None, Some(1), Some(LIMIT + 1)].map(|saved| Page { saved, ..sound });
    let pages = [sound, Page { done: 1, ..sound }, Page { kind: 3, ..sound }].into_iter().chain(marks);
    let lengths = [(LIMIT + 1, 0), (0, LIMIT + 1), (LIMIT, LIMIT)];
    let on_zeros = move |page| lengths.map(|(cells, words)| on_zeros(kind, page, cells, words));
    [full(kind)].into_iter().chain(many_records(kind)).chain(refused(kind)).chain(pages.flat_map(on_zeros))
}

/// Opens with one thing too long, and with a fault beside it.
fn refused(kind: Kind) -> impl Iterator<Item = List> {
    let open = move |cells, words, arrived| calls(blank(cells, words), [Call::Open { kind, arrived }]);
    [
        open(LIMIT + 1, 0, vec![BYTE]),
        open(0, LIMIT + 1, vec![0x80]),
        open(0, 0, vec![0x80; LIMIT + 1]),
        open(LIMIT, LIMIT, vec![BYTE; LIMIT + 1]),
        open(LIMIT - 1, LIMIT, vec![BYTE; LIMIT]),
    ]
    .into_iter()
}

/// A page as long as can be, with calls that it just takes and calls that it just does not. One of its saves marks the
/// most words that can be done, and a replace drops that mark.
pub fn full(kind: Kind) -> List {
    let arrived = vec![BYTE; LIMIT];
    let replace = |place, count, added| Call::Replace { place, count, cells: vec![cell(kind); added] };
    let save = |length, room| Call::Save { arrived: vec![BYTE; length], room };
    calls(
        blank(LIMIT, LIMIT),
        [
            Call::Open { kind, arrived },
            save(LIMIT, LIMIT + 4_000),
            save(LIMIT + 1, LIMIT + 1),
            replace(0, 0, 1),
            replace(0, LIMIT, 0),
            replace(0, LIMIT - 3, 0),
            replace(0, LIMIT, LIMIT),
            replace(0, 0, LIMIT + 1),
            save(LIMIT + 1, LIMIT + 1),
            save(LIMIT, 3),
            Call::Undo,
            replace(0, 0, LIMIT),
            replace(LIMIT, 0, 0),
            Call::Redo,
            save(0, LIMIT + 1),
            Call::Undo,
            save(LIMIT, LIMIT),
        ],
    )
}

/// As many steps as can be recorded, each of which removes nothing and adds nothing, with marks on both sides of their
/// ends.
fn many_records(kind: Kind) -> impl Iterator<Item = List> {
    let used = LIMIT / 3 * 3;
    let marks = [0, 1, 3, 4, used - 6, used - 3, used - 2, used - 1, used, used + 1, used + 3];
    marks.into_iter().map(Some).chain([None]).map(move |saved| {
        let page = Page { used, done: used, saved, ..Page::opened(kind, 0) };
        let replace = Call::Replace { place: 0, count: 0, cells: vec![cell(kind)] };
        let save = |room| Call::Save { arrived: vec![], room };
        let squeeze = |steps, work| Call::Squeeze { steps, work };
        let turns = [Call::Undo, Call::Undo, Call::Redo, Call::Undo, replace, save(0), Call::Redo, save(1), Call::Undo];
        let squeezes = [squeeze(2, 2), squeeze(2, 3), squeeze(used / 3 - 4, 3), squeeze(2, 3), Call::Redo, Call::Undo];
        let turns = turns.into_iter().chain(squeezes);
        calls(State { page, text: vec![0; 5], history: vec![0; LIMIT] }, turns)
    })
}

/// Calls on a page with buffers of zeros, also with lists that are too long, and that have faults.
fn on_zeros(kind: Kind, page: Page, cells: usize, words: usize) -> List {
    let replace = |length| Call::Replace { place: 1, count: 0, cells: vec![u32::MAX; length] };
    let save = |length| Call::Save { arrived: vec![BYTE; length], room: 2 };
    let keep = |length, room| Call::Keep { arrived: vec![BYTE; length], room };
    let moves = [Call::Undo, Call::Redo, replace(1), replace(LIMIT), replace(LIMIT + 1), save(1), save(LIMIT + 1)];
    let append = Call::Replace { place: 0, count: 0, cells: vec![cell(kind)] };
    let start = State { page, text: vec![0; cells], history: vec![0; words] };
    let squeeze = Call::Squeeze { steps: 2, work: LIMIT + 1 };
    let keepings = [keep(0, 200), keep(1, 0), keep(LIMIT, 200), keep(LIMIT + 1, 200), squeeze];
    calls(start, keepings.clone().into_iter().chain(moves).chain([append, save(0), save(LIMIT + 1)]).chain(keepings))
}
