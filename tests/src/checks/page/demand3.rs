//! Demand 3 of document 01, by the ledger, with the mark and the question of order 5 of document 02 and the page files
//! of order 6: what holds after each call of a list, each reading of a file that was kept, and after the list.

use super::Program;
use crate::calls::{blank, List, Move, Reading};
use crate::lent::filled;
use crate::second::ledger::{Ledger, Step};
use crate::second::page::{self, Asked, Left, Record, State};
use crate::second::{Answer, Call, Kind};
use crate::trial::show;

/// What was opened: the bytes that arrived, and the ledger of the calls since.
#[derive(Clone)]
struct Opened {
    arrived: Vec<u8>,
    ledger: Ledger,
}

/// A file that was kept: the state at that keeping, and what was opened, where it was lent the very bytes of that.
#[derive(Clone)]
struct Kept {
    file: Vec<u8>,
    state: State,
    opened: Option<Opened>,
}

/// Where a list has led on a program.
struct Course<'a> {
    program: &'a Program<'a>,
    state: State,
    opened: Option<Opened>,
    kept: Vec<Kept>,
}

/// Makes the calls of a list on a program, and asks after each whether what demand 3 says holds of it.
pub fn follow(list: &List, program: &Program) -> Result<(), String> {
    let mut course = Course { program, state: list.start.clone(), opened: None, kept: Vec::new() };
    for (number, item) in (1..).zip(&list.moves) {
        let after = |difference| format!("after {number}, {difference}");
        match item {
            // The ledger hears nothing of it: demand 3 does not speak of what follows.
            Move::Change(change) => {
                change.make(&mut course.state);
                course.opened = None;
            }
            Move::Call(call) => course.call(call).map_err(after)?,
            Move::Read(reading) => course.read(reading).map_err(after)?,
        }
    }
    let at_the_bottom = |difference| format!("after the list, undone until it is refused, {difference}");
    let Course { opened, state, .. } = course;
    opened.map_or(Ok(()), |opened| opened.holds_at_the_bottom(state, program).map_err(at_the_bottom))
}

impl Course<'_> {
    /// Makes a call, and asks what holds of its answer and of the state that it leaves.
    fn call(&mut self, call: &Call) -> Result<(), String> {
        let left = (self.program.make)(&self.state, call)?;
        let accepted = left.answer.number == 0;
        if let Call::Open { kind, arrived } = call {
            self.opened = if accepted { Some(Opened::new(*kind, arrived)?) } else { None };
        } else if let Some(opened) = &mut self.opened {
            opened.holds_of(call, &left)?;
            opened.ledger.hear(call, accepted);
        }
        if let Some(opened) = &self.opened {
            opened.holds(&left.state, self.program)?;
        }
        if let (Some(file), Call::Keep { arrived, .. }) = (left.file(call), call) {
            // "where keeping is lent the very bytes the page was opened on"
            let opened = self.opened.clone().filter(|opened| opened.arrived == *arrived);
            self.kept.push(Kept { file, state: left.state.clone(), opened });
        }
        self.state = left.state;
        Ok(())
    }

    /// Reads a file that was kept: "the ledger goes on as it was at that keeping." It is refused only where a buffer is
    /// shorter than it was then, and the list goes on as before.
    fn read(&mut self, reading: &Reading) -> Result<(), String> {
        let Some(Kept { file, state, opened }) = reading.file(&self.kept).cloned() else { return Ok(()) };
        let (buffers, room) = reading.buffers();
        let left = (self.program.read)(&file, &buffers, &room)?;
        let is_roomy = buffers.text.len() >= state.text.len() && buffers.history.len() >= state.history.len();
        match &opened {
            Some(opened) if left.answer.number != 0 && is_roomy && room.len() >= opened.arrived.len() => {
                return Err(format!("a file that was kept is refused: {}", left.answer));
            }
            Some(opened) if left.answer.number == 0 => {
                if left.arrived.get(..left.answer.place) != Some(&opened.arrived) {
                    return Err(format!("it arrived as \"{}\"", left.arrived.escape_ascii()));
                }
                opened.holds(&left.state, self.program)?;
            }
            _ => {}
        }
        if left.answer.number == 0 {
            (self.state, self.opened) = (left.state, opened);
        }
        Ok(())
    }
}

impl Opened {
    fn new(kind: Kind, arrived: &[u8]) -> Result<Opened, String> {
        let ledger = Ledger::new(kind, arrived).ok_or("bytes that do not read were opened")?;
        Ok(Opened { arrived: arrived.to_vec(), ledger })
    }

    /// What demand 3 says of a state, and of the calls that may follow.
    fn holds(&self, state: &State, program: &Program) -> Result<(), String> {
        self.records_agree(state)?;
        text_is(&self.ledger.text(), state)?;
        self.mark_is_kept(state, program)?;
        self.can_be_kept(state, program)?;
        for call in [Call::Undo, Call::Redo, self.save()] {
            let of_call = |difference| format!("{call} would be wrong: {difference}");
            (program.make)(state, &call).and_then(|left| self.holds_of(&call, &left)).map_err(of_call)?;
        }
        Ok(())
    }

    /// Lent the opened bytes, keeping refuses only for room; the file is the ledger's, and read into buffers as long as
    /// these it gives back the page, its buffers and the bytes.
    fn can_be_kept(&self, state: &State, program: &Program) -> Result<(), String> {
        let file = self.ledger.content(&self.arrived).file();
        let keep = |room| (program.make)(state, &Call::Keep { arrived: self.arrived.clone(), room });
        let kept = keep(file.len())?;
        if kept.answer.number != 0 || kept.output != file || kept.state != *state {
            return Err(format!("it is kept with {} as \"{}\"", kept.answer, kept.output.escape_ascii()));
        }
        number_is(9, &keep(file.len() - 1)?)?;
        let buffers = blank(state.text.len(), state.history.len());
        let left = (program.read)(&file, &buffers, &filled(self.arrived.len()))?;
        if left.answer.number != 0 || left.state != *state || left.arrived != self.arrived {
            return Err(format!("its file is read with {}, and the page has {}", left.answer, left.state.page));
        }
        Ok(())
    }

    /// "after the list the page's mark equals the one that the same ledger now keeps by these rules"; and the question
    /// is answered by it.
    fn mark_is_kept(&self, state: &State, program: &Program) -> Result<(), String> {
        if state.page.saved != self.ledger.saved {
            return Err(format!("the page has {}, and the mark of the ledger is {:?}", state.page, self.ledger.saved));
        }
        let expected = Asked { answer: Answer { number: 0, place: 0 }, unchanged: self.ledger.is_unchanged() };
        let asked = (program.ask)(state)?;
        if asked != expected {
            return Err(format!("the question gives {asked} and not {expected}"));
        }
        Ok(())
    }

    /// A save with the bytes that were opened, and with room enough.
    fn save(&self) -> Call {
        let written = self.ledger.writing().map_or(0, |written| written.len());
        Call::Save { arrived: self.arrived.clone(), room: written.max(self.arrived.len()) }
    }

    /// What demand 3 says of a call after those that the ledger heard.
    fn holds_of(&self, call: &Call, left: &Left) -> Result<(), String> {
        let Ledger { standing, undone, .. } = &self.ledger;
        match call {
            // "An undo then gives 13 exactly when the standing list is empty, a redo exactly when the undone list is;
            // else they are accepted."
            Call::Undo => number_is(if standing.is_empty() { 13 } else { 0 }, left),
            Call::Redo => number_is(if undone.is_empty() { 13 } else { 0 }, left),
            Call::Squeeze { steps, work } => number_is(self.squeezing(*steps, *work), left),
            // "An accepted save gives the bytes lent to it as arrived if nothing stands, otherwise the writing of the
            // ledger's text in the page's kind."
            Call::Save { arrived, .. } if left.answer.number == 0 => {
                let expected = if standing.is_empty() { Ok(arrived.clone()) } else { self.ledger.writing() };
                let saved = left.output.get(..left.answer.place).ok_or("more is saved than there is room for")?;
                match expected {
                    Ok(bytes) if bytes == saved => Ok(()),
                    _ => Err(format!("\"{}\" is saved", saved.escape_ascii())),
                }
            }
            _ => Ok(()),
        }
    }

    /// The number that a squeeze gives by the ledger's own words: "11 (..) for k under 2 or over the standing steps, 19
    /// (..) when the words would not become fewer, 9 when a lent work buffer (..) cannot hold the new record".
    fn squeezing(&self, steps: usize, work: usize) -> u32 {
        let words = self.ledger.fold(steps).words();
        match steps {
            _ if steps < 2 || steps > self.ledger.standing.len() => 11,
            _ if words >= self.ledger.words_of(steps) => 19,
            _ if words > work => 9,
            _ => 0,
        }
    }

    /// That the page is sound; "the records are proved to agree with it, step for step, in place, count removed and
    /// cells added."
    fn records_agree(&self, state: &State) -> Result<(), String> {
        let sound = page::sound(state).ok_or("the page is not sound")?;
        let agree = |steps: &[Step], records: &[Record]| {
            let of_record = |record: &Record| Step {
                place: record.place,
                count: record.removed.len(),
                cells: record.added.clone(),
            };
            steps.iter().cloned().eq(records.iter().map(of_record))
        };
        if agree(&self.ledger.standing, &sound.standing) && agree(&self.ledger.undone, &sound.undone) {
            return Ok(());
        }
        Err(format!("the records {} are not the ledger's steps", show(&state.history[..state.page.used])))
    }

    /// Undo until it is refused, which it is after as many as stand: the reading is back, and save with the bytes that
    /// were opened gives them.
    fn holds_at_the_bottom(mut self, mut state: State, program: &Program) -> Result<(), String> {
        let make = program.make;
        for _ in 0..self.ledger.standing.len() {
            state = make(&state, &Call::Undo).and_then(|left| number_is(0, &left).map(|()| left.state))?;
            self.ledger.hear(&Call::Undo, true);
            self.mark_is_kept(&state, program)?;
        }
        make(&state, &Call::Undo).and_then(|left| number_is(13, &left))?;
        text_is(&self.ledger.reading, &state)?;
        let saved = make(&state, &Call::Save { arrived: self.arrived.clone(), room: self.arrived.len() })?;
        number_is(0, &saved)?;
        if saved.answer.place != self.arrived.len() || saved.output != self.arrived {
            return Err(format!("\"{}\" is saved", saved.output.escape_ascii()));
        }
        self.ledger.hear(&self.save(), true);
        self.mark_is_kept(&saved.state, program)
    }
}

fn number_is(expected: u32, left: &Left) -> Result<(), String> {
    if left.answer.number == expected {
        return Ok(());
    }
    Err(format!("the answer is {} and not {expected}", left.answer))
}

/// "After the list the first *length* cells of the text buffer equal the ledger's text."
fn text_is(expected: &[u32], state: &State) -> Result<(), String> {
    let text = state.text.get(..state.page.length).ok_or("the length is over the text buffer")?;
    if text == expected {
        return Ok(());
    }
    Err(format!("the text is {} and not {}", show(text), show(expected)))
}

#[cfg(test)]
mod tests {
    use super::*;
    use crate::calls::seeded;
    use crate::checks::page::second;
    use crate::second::page::Page;
    use crate::second::page_file::{self, FileLeft};

    /// Whether demand 3 holds of a program on seeded lists.
    fn holds_of_program(program: &Program) -> bool {
        let opened = |kind| seeded::opened(1, kind, seeded::SMALL, 100);
        let lists =
            |kind| opened(kind).chain(seeded::kept(1, kind, seeded::SMALL, 50)).chain(seeded::squeezed(1, kind, 50));
        Kind::ALL.into_iter().flat_map(lists).all(|list| follow(&list, program).is_ok())
    }

    fn read(file: &[u8], buffers: &State, arrived: &[u8]) -> Result<FileLeft, String> {
        Ok(page_file::left(file, buffers, arrived))
    }

    /// Whether it holds of one that answers the question as the second program does.
    fn holds(make: impl Fn(&State, &Call) -> Result<Left, String>) -> bool {
        holds_of_program(&Program { make: &make, ask: &|state| Ok(page::ask(state)), read: &read })
    }

    /// Whether it holds of one that makes the calls as the second program does, and answers the question by this rule.
    fn holds_of_answer(is_unchanged: impl Fn(&Page) -> bool) -> bool {
        let ask = |state: &State| Ok(Asked { unchanged: is_unchanged(&state.page), ..page::ask(state) });
        holds_of_program(&Program { make: &|state, call| Ok(second(state, call)), ask: &ask, read: &read })
    }

    /// Whether it holds of one that makes the calls as the second program does, and leaves this of a reading instead.
    fn holds_of_reading(change: fn(&mut FileLeft)) -> bool {
        let read = |file: &[u8], buffers: &State, arrived: &[u8]| {
            let mut left = page_file::left(file, buffers, arrived);
            if left.answer.number == 0 {
                change(&mut left);
            }
            Ok(left)
        };
        let make = |state: &State, call: &Call| Ok(second(state, call));
        holds_of_program(&Program { make: &make, ask: &|state| Ok(page::ask(state)), read: &read })
    }

    fn accept(state: State) -> Result<Left, String> {
        Ok(Left { answer: Answer { number: 0, place: state.page.length }, state, output: vec![], work: vec![] })
    }

    #[test]
    fn the_second_program_is_as_demanded() {
        assert!(holds(|state, call| Ok(second(state, call))));
    }

    #[test]
    fn an_undo_that_does_nothing_is_not() {
        assert!(!holds(|state, call| match second(state, call) {
            Left { answer: Answer { number: 0, .. }, .. } if *call == Call::Undo => accept(state.clone()),
            left => Ok(left),
        }));
    }

    #[test]
    fn an_undo_that_jumps_to_the_original_is_not() {
        assert!(!holds(|state, call| {
            let mut left = second(state, call);
            while *call == Call::Undo && left.answer.number == 0 && left.state.page.done > 0 {
                left = second(&left.state, call);
            }
            Ok(left)
        }));
    }

    #[test]
    fn an_undo_that_empties_the_page_at_the_bottom_is_not() {
        assert!(!holds(|state, call| match second(state, call) {
            Left { answer: Answer { number: 13, .. }, state, .. } if *call == Call::Undo => {
                let page = Page { opening: 0, length: 0, used: 0, ..state.page };
                accept(State { page, text: vec![0; state.text.len()], history: vec![0; state.history.len()] })
            }
            left => Ok(left),
        }));
    }

    #[test]
    fn a_replace_that_keeps_the_undone_steps_is_not() {
        assert!(!holds(|state, call| {
            let mut left = second(state, call);
            if left.answer.number == 0 && matches!(call, Call::Replace { .. }) {
                let State { page, history, .. } = &mut left.state;
                let undone = &state.history[state.page.done..state.page.used];
                if let Some(room) = history[page.done..].get_mut(..undone.len()) {
                    room.copy_from_slice(undone);
                    page.used += undone.len();
                }
            }
            Ok(left)
        }));
    }

    #[test]
    fn a_save_that_writes_although_nothing_stands_is_not() {
        assert!(!holds(|state, call| {
            let mut left = second(state, call);
            let text = &state.text[..state.page.length];
            let written = Kind::of_number(state.page.kind).and_then(|kind| kind.write(text).ok()).unwrap_or_default();
            if matches!(call, Call::Save { .. }) && left.answer.number == 0 && written.len() <= call.room() {
                left.answer.place = written.len();
                left.output[..written.len()].copy_from_slice(&written);
            }
            Ok(left)
        }));
    }

    /// The mark that a call leaves, by the page before it and by its own.
    type Rule = fn(&Page, &Page) -> Option<usize>;

    /// Whether demand 3 holds of a program whose accepted calls of a sort mark by this rule.
    fn holds_with(is_of_sort: fn(&Call) -> bool, rule: Rule) -> bool {
        holds(|state, call| {
            let mut left = second(state, call);
            if is_of_sort(call) && left.answer.number == 0 {
                left.state.page.saved = rule(&state.page, &left.state.page);
            }
            Ok(left)
        })
    }

    #[test]
    fn a_save_marks_at_the_words_done() {
        let save = |call: &Call| matches!(call, Call::Save { .. });
        assert!(holds_with(save, |before, _| Some(before.done)));
        let others: [Rule; 4] = [|before, _| before.saved, |before, _| Some(before.used), |_, _| Some(0), |_, _| None];
        assert!(others.into_iter().all(|other| !holds_with(save, other)));
    }

    #[test]
    fn a_refused_save_marks_nothing() {
        assert!(!holds(|state, call| {
            let mut left = second(state, call);
            if matches!(call, Call::Save { .. }) {
                left.state.page.saved = Some(state.page.done);
            }
            Ok(left)
        }));
    }

    #[test]
    fn a_replace_drops_a_mark_that_exceeds_the_words_done_before_it() {
        let replace = |call: &Call| matches!(call, Call::Replace { .. });
        assert!(holds_with(replace, |before, _| before.saved.filter(|&mark| mark <= before.done)));
        let others: [Rule; 4] = [
            |before, _| before.saved,
            |_, _| None,
            |before, _| before.saved.filter(|&mark| mark < before.done),
            |before, after| before.saved.filter(|&mark| mark <= after.done),
        ];
        assert!(others.into_iter().all(|other| !holds_with(replace, other)));
    }

    #[test]
    fn undo_and_redo_leave_the_mark() {
        let turn = |call: &Call| matches!(call, Call::Undo | Call::Redo);
        assert!(holds_with(turn, |before, _| before.saved));
        let others: [Rule; 3] = [
            |_, _| None,
            |before, after| before.saved.filter(|&mark| mark <= after.done),
            |before, after| before.saved.map(|_| after.done),
        ];
        assert!(others.into_iter().all(|other| !holds_with(turn, other)));
    }

    #[test]
    fn the_question_compares_the_mark_with_the_words_done() {
        assert!(holds_of_answer(|page| page.saved == Some(page.done)));
        let others: [fn(&Page) -> bool; 5] = [
            |page| page.saved == Some(page.used),
            |page| page.saved <= Some(page.done),
            |page| page.saved >= Some(page.done),
            |page| page.saved.is_some(),
            |page| page.done == 0,
        ];
        assert!(others.into_iter().all(|other| !holds_of_answer(other)));
    }

    /// Whether demand 3 holds of a program whose accepted squeezes leave this instead.
    fn holds_of_squeeze(change: fn(&State, &mut Left)) -> bool {
        holds(|state, call| {
            let mut left = second(state, call);
            if matches!(call, Call::Squeeze { .. }) && left.answer.number == 0 {
                change(state, &mut left);
            }
            Ok(left)
        })
    }

    #[test]
    fn a_squeeze_keeps_the_later_steps_the_texts_and_moves_the_mark() {
        assert!(holds_of_squeeze(|_, _| {}));
        let others: [fn(&State, &mut Left); 7] = [
            |before, left| {
                *left = Left { answer: Answer { number: 11, place: 0 }, state: before.clone(), ..left.clone() }
            },
            |before, left| left.state = before.clone(),
            |_, left| left.state.text.reverse(),
            |_, left| left.state.page.saved = None,
            |before, left| left.state.page.saved = before.page.saved,
            |before, left| left.state.page.saved = before.page.saved.map(|_| left.state.page.done),
            |_, left| {
                let State { page, history, .. } = &mut left.state;
                history[page.done..].fill(0);
                page.used = page.done;
                page.saved = page.saved.filter(|&mark| mark <= page.done);
            },
        ];
        assert!(others.into_iter().all(|other| !holds_of_squeeze(other)));
    }

    #[test]
    fn a_fold_of_one_step_more_is_not() {
        assert!(!holds(|state, call| match call {
            Call::Squeeze { steps: steps @ 2.., work } if *steps < 1_000 => {
                match second(state, &Call::Squeeze { steps: steps + 1, work: *work }) {
                    left if left.answer.number == 0 => Ok(left),
                    _ => Ok(second(state, call)),
                }
            }
            _ => Ok(second(state, call)),
        }));
    }

    #[test]
    fn a_reading_gives_back_what_was_kept() {
        assert!(holds_of_reading(|_| {}));
        let others: [fn(&mut FileLeft); 6] = [
            |left| left.answer = Answer { number: 18, place: 0 },
            |left| left.state.page.saved = None,
            |left| left.state.page.saved = Some(left.state.page.done),
            |left| left.state.page.done = left.state.page.used,
            |left| left.state.history[..left.state.page.used].fill(0),
            |left| left.arrived.reverse(),
        ];
        assert!(others.into_iter().all(|other| !holds_of_reading(other)));
    }

    #[test]
    fn a_file_has_all_steps_and_the_mark() {
        let others: [fn(&mut State); 4] = [
            |state| state.page.saved = None,
            |state| state.page.saved = Some(state.page.done),
            |state| {
                state.history[state.page.done..].fill(0);
                state.page.used = state.page.done;
            },
            |state| state.page.opening = state.page.length,
        ];
        for other in others {
            assert!(!holds(|state, call| {
                let left = second(state, call);
                if left.file(call).is_none() {
                    return Ok(left);
                }
                let mut kept = state.clone();
                other(&mut kept);
                Ok(Left { state: state.clone(), ..second(&kept, call) })
            }));
        }
    }

    #[test]
    fn keeping_refuses_only_for_room() {
        assert!(!holds(|state, call| match second(state, call) {
            left if left.file(call).is_some() && state.page.used > state.page.done => {
                Ok(Left { answer: Answer { number: 15, place: 0 }, ..left })
            }
            left => Ok(left),
        }));
    }

    #[test]
    fn a_record_of_another_place_is_not() {
        assert!(!holds(|state, call| {
            let mut left = second(state, call);
            if matches!(call, Call::Replace { place: 1.., count: 0, .. }) && left.answer.number == 0 {
                left.state.history[state.page.done] -= 1;
            }
            Ok(left)
        }));
    }
}
