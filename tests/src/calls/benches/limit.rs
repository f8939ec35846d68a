//! Lists of calls of both benches with as much as can be lent, and with more.

use super::{blank, calls, List};
use crate::second::benches::{Bench, Benches, Call, State, Turn};
use crate::second::{Kind, LIMIT};

/// The byte that the texts are made of.
const BYTE: u8 = b'a';

const KINDS: [Kind; 2] = [Kind::Utf7Body, Kind::Jp2];

fn cell(bench: usize) -> u32 {
    KINDS[bench].read(&[BYTE]).expect("a whole text")[0]
}

fn of(bench: usize, turn: Turn) -> Call {
    Call::Of { bench, turn }
}

fn replace(bench: usize, place: usize, count: usize, added: usize) -> Call {
    of(bench, Turn::Replace { place, count, cells: vec![cell(bench % 2); added] })
}

fn save(bench: usize, arrived: usize, room: usize) -> Call {
    of(bench, Turn::Save { arrived: vec![BYTE; arrived], room })
}

fn open(arrived: [Vec<u8>; 2]) -> Call {
    Call::Open { kinds: KINDS.map(Kind::number), arrived }
}

pub fn lists() -> impl Iterator<Item = List> {
    let lengths = [([LIMIT + 1, 0], 0), ([0, LIMIT + 1], 0), ([0, 0], LIMIT + 1), ([LIMIT; 2], LIMIT)];
    let on_zeros = lengths.into_iter().map(|(cells, words)| on_zeros(cells, words));
    [full()].into_iter().chain(many_records()).chain(refused()).chain(on_zeros)
}

/// Opens with one thing too long, and with a fault beside it: all of bench 0's refusals come first.
fn refused() -> impl Iterator<Item = List> {
    let faulty = || vec![BYTE, 0x80];
    let long = || vec![BYTE; LIMIT + 1];
    let open_in = |cells, words, arrived| calls(blank(cells, words), [open(arrived)]);
    let no_kind = |arrived: [Vec<u8>; 2]| Call::Open { kinds: [3, 0], arrived };
    [
        open_in([LIMIT + 1, 0], 0, [faulty(), faulty()]),
        open_in([2, LIMIT + 1], 0, [faulty(), vec![]]),
        open_in([1, LIMIT + 1], 0, [vec![BYTE; 2], vec![]]),
        open_in([2, LIMIT + 1], 0, [vec![BYTE; 2], faulty()]),
        open_in([2, 0], LIMIT + 1, [faulty(), faulty()]),
        open_in([2, 2], 0, [long(), faulty()]),
        open_in([2, 2], 0, [faulty(), long()]),
        open_in([2, 2], 0, [vec![BYTE; 2], long()]),
        open_in([LIMIT, LIMIT - 1], LIMIT, [vec![BYTE; LIMIT], vec![BYTE; LIMIT]]),
        calls(blank([2, 2], 0), [no_kind([vec![], long()]), no_kind([long(), vec![]]), no_kind([faulty(), faulty()])]),
        calls(blank([2, LIMIT + 1], 0), [no_kind([vec![], vec![]])]),
        calls(blank([2, 2], LIMIT + 1), [no_kind([vec![], vec![]])]),
    ]
    .into_iter()
}

/// Benches as long as can be, with calls that they just take and calls that they just do not.
pub fn full() -> List {
    let all = vec![BYTE; LIMIT];
    calls(
        blank([LIMIT; 2], LIMIT),
        [
            open([all.clone(), all]),
            save(0, LIMIT, LIMIT + 4_000),
            save(1, LIMIT + 1, LIMIT + 1),
            replace(0, 0, 0, 1),
            replace(1, 0, LIMIT - 3, 0),
            replace(1, 0, LIMIT - 8, 0),
            replace(0, 0, 1, 0),
            replace(0, 0, 0, 0),
            save(1, 0, 8),
            of(1, Turn::Undo),
            replace(0, 0, 1, 0),
            replace(0, 1, 0, LIMIT + 1),
            replace(2, 1, 0, LIMIT + 1),
            replace(1, 0, LIMIT - 13, 0),
            replace(1, 0, LIMIT - 12, 0),
            of(0, Turn::Undo),
            replace(0, LIMIT, 0, 0),
            save(0, LIMIT, LIMIT),
            of(0, Turn::Redo),
        ],
    )
}

/// As many steps as can be recorded, each of which removes nothing and adds nothing, with the benches in turn; all
/// stand, or half of each, or none.
fn many_records() -> impl Iterator<Item = List> {
    let count = LIMIT / 8;
    [count, count / 2, 0].into_iter().map(move |standing| {
        let history = (0..2 * count).flat_map(|number| [number as u32 % 2, 0, 0, 0]).collect();
        let bench = |kind| Bench { standing, saved: Some(count), ..Bench::opened(kind, 0) };
        let benches = Benches { each: KINDS.map(bench), used: LIMIT };
        let turns = |bench| [Turn::Undo, Turn::Redo, Turn::Redo, Turn::Undo].map(|turn| of(bench, turn));
        let others = [replace(0, 0, 0, 1), save(0, 0, 1), of(1, Turn::Redo), replace(1, 0, 0, 1), save(1, 0, 9)];
        let both = turns(0).into_iter().chain(turns(1)).chain(others).chain(turns(0)).chain(turns(1));
        calls(State { benches, texts: [vec![0; 3], vec![0; 4]], history }, both)
    })
}

/// Calls of benches on which nothing was done with buffers of zeros, sound and not, also of no bench, with lists that
/// are too long, and that have faults.
fn on_zeros(cells: [usize; 2], words: usize) -> List {
    let benches = Benches { each: KINDS.map(|kind| Bench::opened(kind, 0)), used: 0 };
    let start = State { benches, texts: cells.map(|cells| vec![0; cells]), history: vec![0; words] };
    let faulty = |bench, length| of(bench, Turn::Replace { place: 1, count: 0, cells: vec![u32::MAX; length] });
    let of_each = |bench| {
        let turns = [of(bench, Turn::Undo), of(bench, Turn::Redo), faulty(bench, 1), faulty(bench, LIMIT + 1)];
        turns.into_iter().chain([save(bench, 1, 2), save(bench, LIMIT + 1, 2), replace(bench, 0, 0, 1)])
    };
    calls(start, [0, 1, 2].into_iter().flat_map(of_each))
}
