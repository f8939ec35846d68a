//! Demand 3 of document 01 for each bench, by its own ledger, with the mark and the question: order 13 of document 02,
//! "in every list of calls of both benches, its ledger is fed its own kind, arrived text and calls alone."

use super::Program;
use crate::calls::benches::{List, Move};
use crate::second::bench_ledger::BenchLedger;
use crate::second::benches::{self, Call, Left, State, Turn};
use crate::second::ledger::Step;
use crate::second::page::{Asked, Record};
use crate::second::{Answer, Kind};
use crate::trial::show;

/// What was opened on a bench: the bytes that arrived, and the ledger of its calls since.
#[derive(Clone)]
struct Opened {
    bench: usize,
    arrived: Vec<u8>,
    ledger: BenchLedger,
}

/// Makes the calls of a list on a program, and asks after each whether what demand 3 says holds of both benches.
pub fn follow(list: &List, program: &Program) -> Result<(), String> {
    let mut state = list.start.clone();
    let mut opened = Vec::new();
    for (number, item) in (1..).zip(&list.moves) {
        let after = |difference| format!("after {number}, {difference}");
        match item {
            // The ledgers hear nothing of it: demand 3 does not speak of what follows.
            Move::Change(change) => {
                change.make(&mut state);
                opened.clear();
            }
            Move::Call(call) => {
                let left = (program.make)(&state, call).map_err(after)?;
                hear(&mut opened, call, &left).map_err(after)?;
                state = left.state;
            }
        }
        opened.iter().try_for_each(|opened| opened.holds(&state, program)).map_err(after)?;
    }
    let at_the_bottom = |difference| format!("after the list, undone until it is refused, {difference}");
    opened.into_iter().try_for_each(|opened| opened.holds_at_the_bottom(&state, program)).map_err(at_the_bottom)
}

/// What holds of the answer to a call, which is then told to the ledger of its bench.
fn hear(opened: &mut Vec<Opened>, call: &Call, left: &Left) -> Result<(), String> {
    let accepted = left.answer.number == 0;
    match call {
        Call::Open { kinds, arrived } => {
            opened.clear();
            if accepted {
                for bench in [0, 1] {
                    opened.push(Opened::new(bench, kinds[bench], &arrived[bench])?);
                }
            }
            Ok(())
        }
        Call::Of { bench, turn } => {
            let Some(opened) = opened.get_mut(*bench) else { return Ok(()) };
            opened.holds_of(turn, left)?;
            opened.ledger.hear(turn, accepted);
            Ok(())
        }
    }
}

impl Opened {
    fn new(bench: usize, kind: u32, arrived: &[u8]) -> Result<Opened, String> {
        let ledger = Kind::of_number(kind).and_then(|kind| BenchLedger::new(kind, arrived));
        let ledger = ledger.ok_or("bytes that do not read were opened")?;
        Ok(Opened { bench, arrived: arrived.to_vec(), ledger })
    }

    /// What demand 3 says of a state, and of the calls of this bench that may follow.
    fn holds(&self, state: &State, program: &Program) -> Result<(), String> {
        let of_bench = |difference| format!("of bench {}, {difference}", self.bench);
        self.records_agree(state).map_err(of_bench)?;
        self.text_is(&self.ledger.page.text(), state).map_err(of_bench)?;
        self.mark_is_kept(state, program).map_err(of_bench)?;
        for turn in [Turn::Undo, Turn::Redo, self.save()] {
            let of_turn = |difference| format!("{turn} of bench {} would be wrong: {difference}", self.bench);
            self.make(state, &turn, program).and_then(|left| self.holds_of(&turn, &left)).map_err(of_turn)?;
        }
        Ok(())
    }

    fn make(&self, state: &State, turn: &Turn, program: &Program) -> Result<Left, String> {
        (program.make)(state, &Call::Of { bench: self.bench, turn: turn.clone() })
    }

    /// What demand 3 says of a call after those that the ledger heard.
    fn holds_of(&self, turn: &Turn, left: &Left) -> Result<(), String> {
        let ledger = &self.ledger.page;
        match turn {
            // "An undo then gives 13 exactly when the standing list is empty, a redo exactly when the undone list is;
            // else they are accepted."
            Turn::Undo => number_is(if ledger.standing.is_empty() { 13 } else { 0 }, left),
            Turn::Redo => number_is(if ledger.undone.is_empty() { 13 } else { 0 }, left),
            // "An accepted save gives the bytes lent to it as arrived if nothing stands, otherwise the writing of the
            // ledger's text in the page's kind."
            Turn::Save { arrived, .. } if left.answer.number == 0 => {
                let expected = if ledger.standing.is_empty() { Ok(arrived.clone()) } else { ledger.writing() };
                let saved = left.output.get(..left.answer.place).ok_or("more is saved than there is room for")?;
                match expected {
                    Ok(bytes) if bytes == saved => Ok(()),
                    _ => Err(format!("\"{}\" is saved", saved.escape_ascii())),
                }
            }
            _ => Ok(()),
        }
    }

    /// The records of a bench are the ledger's steps, "step for step, in place, count removed and cells added."
    fn records_agree(&self, state: &State) -> Result<(), String> {
        let sound = benches::sound(state).ok_or("the benches are not sound")?;
        let records = sound.records(self.bench);
        let of_record =
            |record: &Record| Step { place: record.place, count: record.removed.len(), cells: record.added.clone() };
        let steps = self.ledger.page.standing.iter().chain(&self.ledger.page.undone).cloned();
        let standing = state.benches.each[self.bench].standing;
        if steps.eq(records.iter().map(of_record)) && standing == self.ledger.page.standing.len() {
            return Ok(());
        }
        Err(format!("the records {} are not the ledger's steps", show(&state.history[..state.benches.used])))
    }

    /// "After the list the first *length* cells of the text buffer equal the ledger's text."
    fn text_is(&self, expected: &[u32], state: &State) -> Result<(), String> {
        let length = state.benches.each[self.bench].length;
        let text = state.texts[self.bench].get(..length).ok_or("the length is over the text buffer")?;
        if text == expected {
            return Ok(());
        }
        Err(format!("the text is {} and not {}", show(text), show(expected)))
    }

    /// The mark is the ledger's, and the question is answered by it.
    fn mark_is_kept(&self, state: &State, program: &Program) -> Result<(), String> {
        let saved = state.benches.each[self.bench].saved;
        if saved != self.ledger.saved {
            return Err(format!("the mark is {saved:?}, and that of the ledger is {:?}", self.ledger.saved));
        }
        let expected = Asked { answer: Answer { number: 0, place: 0 }, unchanged: self.ledger.is_unchanged() };
        let asked = (program.ask)(state, self.bench)?;
        if asked != expected {
            return Err(format!("the question gives {asked} and not {expected}"));
        }
        Ok(())
    }

    /// A save with the bytes that were opened, and with room enough.
    fn save(&self) -> Turn {
        let written = self.ledger.page.writing().map_or(0, |written| written.len());
        Turn::Save { arrived: self.arrived.clone(), room: written.max(self.arrived.len()) }
    }

    /// Undo until it is refused, which it is after as many as stand: the reading is back, and save with the bytes that
    /// were opened gives them. The other bench is left as it is.
    fn holds_at_the_bottom(mut self, state: &State, program: &Program) -> Result<(), String> {
        let mut state = state.clone();
        for _ in 0..self.ledger.page.standing.len() {
            let left = self.make(&state, &Turn::Undo, program)?;
            number_is(0, &left)?;
            self.ledger.hear(&Turn::Undo, true);
            self.other_is_left(&state, &left.state)?;
            state = left.state;
            self.mark_is_kept(&state, program)?;
        }
        number_is(13, &self.make(&state, &Turn::Undo, program)?)?;
        self.text_is(&self.ledger.page.reading, &state)?;
        let exact = Turn::Save { arrived: self.arrived.clone(), room: self.arrived.len() };
        let saved = self.make(&state, &exact, program)?;
        number_is(0, &saved)?;
        if saved.answer.place != self.arrived.len() || saved.output != self.arrived {
            return Err(format!("\"{}\" is saved", saved.output.escape_ascii()));
        }
        self.ledger.hear(&self.save(), true);
        self.other_is_left(&state, &saved.state)?;
        self.mark_is_kept(&saved.state, program)
    }

    fn other_is_left(&self, before: &State, after: &State) -> Result<(), String> {
        let of_other = |state: &State| (state.benches.each[1 - self.bench], state.texts[1 - self.bench].clone());
        if of_other(before) == of_other(after) {
            return Ok(());
        }
        Err("the other bench is changed".to_string())
    }
}

fn number_is(expected: u32, left: &Left) -> Result<(), String> {
    if left.answer.number == expected {
        return Ok(());
    }
    Err(format!("the answer is {} and not {expected}", left.answer))
}

#[cfg(test)]
mod tests {
    use super::*;
    use crate::calls::benches::seeded;
    use crate::checks::benches::second;
    use crate::second::benches::Bench;

    /// Whether demand 3 holds of a program on seeded lists.
    fn holds_of_program(program: &Program) -> bool {
        let mut lists = seeded::opened(1, seeded::SMALL, 300).chain(seeded::opened(1, seeded::SHORT, 30));
        lists.all(|list| follow(&list, program).is_ok())
    }

    /// Whether it holds of one that makes the calls as the second program does, but that this is done to what an
    /// accepted one of this sort leaves: the state before it, the bench, and the state after it.
    fn holds_with(is_of_sort: fn(&Turn) -> bool, change: fn(&State, usize, &mut State)) -> bool {
        let make = |state: &State, call: &Call| {
            let mut left = second(state, call);
            match call {
                Call::Of { bench, turn } if is_of_sort(turn) && left.answer.number == 0 => {
                    change(state, *bench, &mut left.state);
                }
                _ => {}
            }
            Ok(left)
        };
        holds_of_program(&Program { make: &make, ask: &|state, bench| Ok(benches::ask(state, bench)) })
    }

    const UNDO: fn(&Turn) -> bool = |turn| *turn == Turn::Undo;
    const REPLACE: fn(&Turn) -> bool = |turn| matches!(turn, Turn::Replace { .. });
    const SAVE: fn(&Turn) -> bool = |turn| matches!(turn, Turn::Save { .. });

    #[test]
    fn the_second_program_is_as_demanded() {
        assert!(holds_with(|_| false, |_, _, _| {}));
    }

    #[test]
    fn an_undo_that_does_nothing_is_not() {
        assert!(!holds_with(UNDO, |before, _, after| *after = before.clone()));
    }

    #[test]
    fn an_undo_of_the_other_bench_too_is_not() {
        assert!(!holds_with(UNDO, |_, bench, after| {
            *after = second(after, &Call::Of { bench: 1 - bench, turn: Turn::Undo }).state;
        }));
    }

    #[test]
    fn a_replace_that_drops_the_others_undone_steps_is_not() {
        assert!(!holds_with(REPLACE, |_, bench, after| {
            let sound = benches::sound(after).expect("sound benches");
            let (mut others, standing) = (0, after.benches.each[1 - bench].standing);
            let mut words = Vec::new();
            for entry in sound.entries {
                others += usize::from(entry.bench != bench);
                if entry.bench == bench || others <= standing {
                    words.extend(entry.words());
                }
            }
            after.benches.used = words.len();
            words.resize(after.history.len(), 0);
            after.history = words;
        }));
    }

    #[test]
    fn marks_are_counts_of_the_benchs_own_steps() {
        assert!(holds_with(SAVE, |before, bench, after| {
            after.benches.each[bench].saved = Some(before.benches.each[bench].standing);
        }));
        assert!(!holds_with(SAVE, |_, bench, after| after.benches.each[bench].saved = None));
        assert!(!holds_with(SAVE, |before, bench, after| {
            after.benches.each[bench].saved = Some(before.benches.each[1 - bench].standing);
        }));
        assert!(!holds_with(SAVE, |before, bench, after| {
            after.benches.each[1 - bench].saved = Some(before.benches.each[1 - bench].standing);
        }));
    }

    #[test]
    fn a_replace_drops_a_mark_of_its_own_bench_alone() {
        assert!(!holds_with(REPLACE, |before, bench, after| {
            after.benches.each[bench].saved = before.benches.each[bench].saved;
        }));
        assert!(!holds_with(REPLACE, |before, bench, after| {
            let other = &mut after.benches.each[1 - bench];
            other.saved = other.saved.filter(|&mark| mark <= before.benches.each[1 - bench].standing);
        }));
    }

    #[test]
    fn the_question_is_asked_of_its_own_bench() {
        let ask = |state: &State, bench: usize| {
            let Bench { standing, saved, .. } = state.benches.each[1 - bench];
            Ok(Asked { unchanged: saved == Some(standing), ..benches::ask(state, bench) })
        };
        assert!(!holds_of_program(&Program { make: &|state, call| Ok(second(state, call)), ask: &ask }));
    }
}
