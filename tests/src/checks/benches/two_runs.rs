//! Order 13 of document 02: "Take two runs with both texts opened and all state handed back untouched. Where one bench
//! has the same kind, arrived text, buffer lengths and calls, and 12 falls on the same ones, its answers after the open
//! and its text are the same, places given with 12 aside." No second program is asked.

use std::fmt::{self, Display, Formatter};

use super::Program;
use crate::calls::benches::pairs::Pair;
use crate::second::benches::{Bench, Call, State};
use crate::second::page::Asked;
use crate::second::Answer;
use crate::trial::show;

/// What a bench is told by one of its calls, and what it then has.
#[derive(PartialEq)]
struct Told {
    answer: Answer,
    output: Vec<u8>,
    asked: Asked,
    bench: Bench,
    text: Vec<u32>,
}

/// How many pairs of runs went how far: to the end, of these with a 12 in both, and to a 12 in one of them only.
#[derive(Default)]
pub struct Met {
    pub whole: usize,
    pub with_12: usize,
    pub parted: usize,
}

impl Display for Met {
    fn fmt(&self, f: &mut Formatter) -> fmt::Result {
        let Met { whole, with_12, parted } = self;
        write!(f, "{whole} pairs to the end, {with_12} of them with 12 in both runs; {parted} to a 12 in one run alone")
    }
}

/// Makes both runs on a program, and compares what the bench is told.
pub fn follow(pair: &Pair, program: &Program, met: &mut Met) -> Result<(), String> {
    let [first, second] = [run(pair, 0, program)?, run(pair, 1, program)?];
    let mut twelves = 0;
    for (number, (one, other)) in (1..).zip(first.into_iter().zip(second)) {
        match (one.answer.number, other.answer.number) {
            (12, 12) => twelves += 1,
            (12, _) | (_, 12) => {
                met.parted += 1;
                return Ok(());
            }
            _ => {}
        }
        let at_call = |difference| format!("at its call {number}, {difference}");
        same(one.but_place_of_12(), other.but_place_of_12()).map_err(at_call)?;
    }
    met.whole += 1;
    met.with_12 += usize::from(twelves > 0);
    Ok(())
}

/// What the bench is told by each of its calls. A call of the other one leaves it and its text as they are.
fn run(pair: &Pair, number: usize, program: &Program) -> Result<Vec<Told>, String> {
    let opened = (program.make)(&pair.start(number), &pair.open(number))?;
    if opened.answer.number != 0 {
        return Err(format!("the open of run {number} is refused: {}", opened.answer));
    }
    let mut state = opened.state;
    let mut all = Vec::new();
    for call in pair.calls(number) {
        let left = (program.make)(&state, &call)?;
        match &call {
            Call::Of { bench, .. } if *bench == pair.bench => {
                let asked = (program.ask)(&left.state, *bench)?;
                let (bench, text) = of_bench(&left.state, *bench);
                all.push(Told { answer: left.answer, output: left.output, asked, bench, text });
            }
            _ if of_bench(&state, pair.bench) != of_bench(&left.state, pair.bench) => {
                return Err(format!("{call} in run {number} changes bench {}", pair.bench));
            }
            _ => {}
        }
        state = left.state;
    }
    Ok(all)
}

fn of_bench(state: &State, bench: usize) -> (Bench, Vec<u32>) {
    (state.benches.each[bench], state.texts[bench].clone())
}

impl Told {
    /// "places given with 12 aside"
    fn but_place_of_12(self) -> Told {
        let place = if self.answer.number == 12 { 0 } else { self.answer.place };
        Told { answer: Answer { place, ..self.answer }, ..self }
    }
}

fn same(one: Told, other: Told) -> Result<(), String> {
    if one == other {
        return Ok(());
    }
    let told = |told: &Told| format!("{}, {}, {}, {}", told.answer, told.asked, told.bench, show(&told.text));
    Err(format!("the bench is told {} in one run and {} in the other", told(&one), told(&other)))
}

#[cfg(test)]
mod tests {
    use super::*;
    use crate::calls::benches::pairs::pairs;
    use crate::checks::benches::second;
    use crate::second::benches::{self, Left, Turn};

    /// Whether the claim holds of a program that does this to what a call of the second program leaves.
    fn holds(change: fn(&State, &Call, &mut Left)) -> bool {
        let make = |state: &State, call: &Call| {
            let mut left = second(state, call);
            change(state, call, &mut left);
            Ok(left)
        };
        let program = Program { make: &make, ask: &|state, bench| Ok(benches::ask(state, bench)) };
        pairs(1, 600).all(|pair| follow(&pair, &program, &mut Met::default()).is_ok())
    }

    #[test]
    fn the_claim_holds_of_the_second_program() {
        let mut met = Met::default();
        let make = |state: &State, call: &Call| Ok(second(state, call));
        let program = Program { make: &make, ask: &|state, bench| Ok(benches::ask(state, bench)) };
        for pair in pairs(1, 600) {
            assert_eq!(follow(&pair, &program, &mut met), Ok(()));
        }
        assert!(met.whole >= 200 && met.with_12 >= 50 && met.parted >= 50, "{met}");
    }

    #[test]
    fn it_does_not_where_a_bench_is_told_of_the_other() {
        let changes: [fn(&State, &Call, &mut Left); 4] = [
            // A refusal that comes from the other's length; a length that counts both; an undo of the other's step; a
            // mark that every save sets.
            |state, call, left| {
                if matches!(call, Call::Of { bench: 0, turn: Turn::Redo }) && state.benches.each[1].length > 20 {
                    left.answer = Answer { number: 13, place: 0 };
                }
            },
            |_, call, left| {
                if matches!(call, Call::Of { turn: Turn::Undo, .. }) && left.answer.number == 0 {
                    left.answer.place = left.state.benches.each.iter().map(|bench| bench.length).sum();
                }
            },
            |state, call, left| {
                if let (Call::Of { bench: bench @ 0..=1, turn: Turn::Undo }, 13) = (call, left.answer.number) {
                    *left = second(state, &Call::Of { bench: 1 - bench, turn: Turn::Undo });
                }
            },
            |_, call, left| {
                if matches!(call, Call::Of { turn: Turn::Save { .. }, .. }) && left.answer.number == 0 {
                    left.state.benches.each.iter_mut().for_each(|bench| bench.saved = Some(bench.standing));
                }
            },
        ];
        assert!(changes.into_iter().all(|change| !holds(change)));
    }
}
