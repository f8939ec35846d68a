//! The calls of both benches.

use super::page::{RawAsked, NEVER_SAVED};
use super::RawAnswer;
use crate::second::benches::{Bench, Benches, Call, Turn};
use crate::second::page::mark_of;
use crate::second::Answer;

#[repr(C)]
struct RawBench {
    kind: u32,
    opening: usize,
    length: usize,
    standing: usize,
    saved: usize,
}

impl From<Bench> for RawBench {
    fn from(Bench { kind, opening, length, standing, saved }: Bench) -> RawBench {
        RawBench { kind, opening, length, standing, saved: saved.unwrap_or(NEVER_SAVED) }
    }
}

impl From<RawBench> for Bench {
    fn from(RawBench { kind, opening, length, standing, saved }: RawBench) -> Bench {
        Bench { kind, opening, length, standing, saved: mark_of(saved) }
    }
}

#[repr(C)]
struct RawBenches {
    bench0: RawBench,
    bench1: RawBench,
    used: usize,
}

impl From<Benches> for RawBenches {
    fn from(Benches { each: [bench0, bench1], used }: Benches) -> RawBenches {
        RawBenches { bench0: bench0.into(), bench1: bench1.into(), used }
    }
}

impl From<RawBenches> for Benches {
    fn from(RawBenches { bench0, bench1, used }: RawBenches) -> Benches {
        Benches { each: [bench0.into(), bench1.into()], used }
    }
}

#[repr(C)]
struct RawBenchesEdited {
    answer: RawAnswer,
    benches: RawBenches,
}

type RawTurn =
    unsafe extern "C" fn(RawBenches, usize, *mut u32, usize, *mut u32, usize, *const u32, usize) -> RawBenchesEdited;

extern "C" {
    fn qalithonda_benches_open(
        kind0: u32,
        kind1: u32,
        arrived0: *const u8,
        arrived0_len: usize,
        arrived1: *const u8,
        arrived1_len: usize,
        text0: *mut u32,
        text0_len: usize,
        text1: *mut u32,
        text1_len: usize,
        history: *mut u32,
        history_len: usize,
    ) -> RawBenchesEdited;
    fn qalithonda_benches_replace(
        benches: RawBenches,
        bench: usize,
        place: usize,
        count: usize,
        cells: *const u32,
        cells_len: usize,
        text0: *mut u32,
        text0_len: usize,
        text1: *mut u32,
        text1_len: usize,
        history: *mut u32,
        history_len: usize,
    ) -> RawBenchesEdited;
    fn qalithonda_benches_undo(
        benches: RawBenches,
        bench: usize,
        text0: *mut u32,
        text0_len: usize,
        text1: *mut u32,
        text1_len: usize,
        history: *const u32,
        history_len: usize,
    ) -> RawBenchesEdited;
    fn qalithonda_benches_redo(
        benches: RawBenches,
        bench: usize,
        text0: *mut u32,
        text0_len: usize,
        text1: *mut u32,
        text1_len: usize,
        history: *const u32,
        history_len: usize,
    ) -> RawBenchesEdited;
    fn qalithonda_benches_save(
        benches: RawBenches,
        bench: usize,
        text0: *const u32,
        text0_len: usize,
        text1: *const u32,
        text1_len: usize,
        history: *const u32,
        history_len: usize,
        arrived: *const u8,
        arrived_len: usize,
        out: *mut u8,
        out_len: usize,
    ) -> RawBenchesEdited;
    fn qalithonda_benches_unchanged(
        benches: RawBenches,
        bench: usize,
        text0: *const u32,
        text0_len: usize,
        text1: *const u32,
        text1_len: usize,
        history: *const u32,
        history_len: usize,
    ) -> RawAsked;
}

pub const OPEN: &str = "qalithonda_benches_open";
pub const REPLACE: &str = "qalithonda_benches_replace";
pub const UNDO: &str = "qalithonda_benches_undo";
pub const REDO: &str = "qalithonda_benches_redo";
pub const SAVE: &str = "qalithonda_benches_save";
pub const UNCHANGED: &str = "qalithonda_benches_unchanged";

/// The name of the function that a call is made with.
pub fn name(call: &Call) -> &'static str {
    match call {
        Call::Open { .. } => OPEN,
        Call::Of { turn: Turn::Replace { .. }, .. } => REPLACE,
        Call::Of { turn: Turn::Undo, .. } => UNDO,
        Call::Of { turn: Turn::Redo, .. } => REDO,
        Call::Of { turn: Turn::Save { .. }, .. } => SAVE,
        Call::Of { .. } => panic!("no call of a bench"),
    }
}

/// Makes a call, and gives its answer and the benches that it gives back.
pub fn make(
    call: &Call,
    benches: Benches,
    texts: [&mut [u32]; 2],
    history: &mut [u32],
    output: &mut [u8],
) -> (Answer, Benches) {
    match call {
        Call::Open { kinds, arrived: [first, second] } => open(*kinds, [first, second], texts, history),
        Call::Of { bench, turn: Turn::Replace { place, count, cells } } => {
            replace(benches, *bench, (*place, *count), cells, texts, history)
        }
        Call::Of { bench, turn: Turn::Undo } => undo(benches, *bench, texts, history),
        Call::Of { bench, turn: Turn::Redo } => redo(benches, *bench, texts, history),
        Call::Of { bench, turn: Turn::Save { arrived, .. } } => {
            let [first, second] = texts;
            save(benches, *bench, [first, second], history, arrived, output)
        }
        Call::Of { .. } => panic!("no call of a bench"),
    }
}

fn given(edited: RawBenchesEdited) -> (Answer, Benches) {
    (edited.answer.into(), edited.benches.into())
}

pub fn open(kinds: [u32; 2], arrived: [&[u8]; 2], texts: [&mut [u32]; 2], history: &mut [u32]) -> (Answer, Benches) {
    let [text0, text1] = texts;
    // SAFETY: each pointer comes with the length of its slice, and only texts and history are written to.
    given(unsafe {
        qalithonda_benches_open(
            kinds[0],
            kinds[1],
            arrived[0].as_ptr(),
            arrived[0].len(),
            arrived[1].as_ptr(),
            arrived[1].len(),
            text0.as_mut_ptr(),
            text0.len(),
            text1.as_mut_ptr(),
            text1.len(),
            history.as_mut_ptr(),
            history.len(),
        )
    })
}

/// Replaces a part, which is a place and a count.
pub fn replace(
    benches: Benches,
    bench: usize,
    (place, count): (usize, usize),
    cells: &[u32],
    texts: [&mut [u32]; 2],
    history: &mut [u32],
) -> (Answer, Benches) {
    let [text0, text1] = texts;
    // SAFETY: each pointer comes with the length of its slice, and only texts and history are written to.
    given(unsafe {
        qalithonda_benches_replace(
            benches.into(),
            bench,
            place,
            count,
            cells.as_ptr(),
            cells.len(),
            text0.as_mut_ptr(),
            text0.len(),
            text1.as_mut_ptr(),
            text1.len(),
            history.as_mut_ptr(),
            history.len(),
        )
    })
}

pub fn undo(benches: Benches, bench: usize, texts: [&mut [u32]; 2], history: &[u32]) -> (Answer, Benches) {
    turn(qalithonda_benches_undo, benches, bench, texts, history)
}

pub fn redo(benches: Benches, bench: usize, texts: [&mut [u32]; 2], history: &[u32]) -> (Answer, Benches) {
    turn(qalithonda_benches_redo, benches, bench, texts, history)
}

fn turn(raw: RawTurn, benches: Benches, bench: usize, texts: [&mut [u32]; 2], history: &[u32]) -> (Answer, Benches) {
    let [text0, text1] = texts;
    // SAFETY: each pointer comes with the length of its slice, and only texts are written to.
    given(unsafe {
        raw(
            benches.into(),
            bench,
            text0.as_mut_ptr(),
            text0.len(),
            text1.as_mut_ptr(),
            text1.len(),
            history.as_ptr(),
            history.len(),
        )
    })
}

pub fn save(
    benches: Benches,
    bench: usize,
    [text0, text1]: [&[u32]; 2],
    history: &[u32],
    arrived: &[u8],
    output: &mut [u8],
) -> (Answer, Benches) {
    // SAFETY: each pointer comes with the length of its slice, and only `output` is written to.
    given(unsafe {
        qalithonda_benches_save(
            benches.into(),
            bench,
            text0.as_ptr(),
            text0.len(),
            text1.as_ptr(),
            text1.len(),
            history.as_ptr(),
            history.len(),
            arrived.as_ptr(),
            arrived.len(),
            output.as_mut_ptr(),
            output.len(),
        )
    })
}

/// Asks whether a bench is as it was saved: the answer, and the number that says so.
pub fn ask(benches: Benches, bench: usize, [text0, text1]: [&[u32]; 2], history: &[u32]) -> (Answer, u32) {
    // SAFETY: each pointer comes with the length of its slice, and nothing is written to.
    let asked = unsafe {
        qalithonda_benches_unchanged(
            benches.into(),
            bench,
            text0.as_ptr(),
            text0.len(),
            text1.as_ptr(),
            text1.len(),
            history.as_ptr(),
            history.len(),
        )
    };
    (asked.answer.into(), asked.unchanged)
}
