//! Squeezing, after order 8 of document 02. The steps are really undone, one after another from the last, and the texts
//! on the way are what the fold takes and gives.

use super::page::{accepted_page, Page, Record, Sound, State};
use super::{refuse, Answer};

/// What an accepted squeeze gives: the new record's words, which stand first in the work buffer, and the state.
pub struct Squeezed {
    pub record: Vec<u32>,
    pub state: State,
}

/// What folding so many of the oldest standing steps gives, where there is room for the record. "Refusals, in order:
/// 16, 14, 11 with place 0 for k under 2 or over the standing steps, 19 (no gain, place 0) when the words would not
/// become fewer, 9".
pub fn squeeze(state: &State, steps: usize) -> Result<Squeezed, Answer> {
    let Sound { text, standing, .. } = accepted_page(state, 0)?;
    if steps < 2 || steps > standing.len() {
        return refuse(11, 0);
    }
    // "the whole text as it was after those k, both as undoing from the present text gives them"
    let (folded, later) = standing.split_at(steps);
    let undo = |text: Vec<u32>, step: &Record| step.reversed().done_on(&text);
    let after = later.iter().rev().fold(text, undo);
    let before = folded.iter().rev().fold(after.clone(), undo);
    // "at place 0 it removes the whole opening text and adds the whole text as it was"
    let fold = Record { place: 0, removed: before, added: after };
    let end = folded.iter().map(|step| step.words().len()).sum::<usize>();
    let record = fold.words();
    if record.len() >= end {
        return refuse(19, 0);
    }
    let state = State { page: moved(state.page, end, record.len()), ..state.clone() };
    Ok(Squeezed { state: closed_up(state, &record, end), record })
}

/// The page's numbers where the words before this end become so many. "A saved mark (..) strictly inside the fold
/// becomes none; one at its end or later moves along."
fn moved(page: Page, end: usize, words: usize) -> Page {
    let freed = end - words;
    let saved = match page.saved {
        Some(mark) if 0 < mark && mark < end => None,
        Some(mark) if mark >= end => Some(mark - freed),
        mark => mark,
    };
    Page { used: page.used - freed, done: page.done - freed, saved, ..page }
}

/// The record, and the words from the fold's end on: "Later steps follow unchanged, closed up, and freed words are 0."
fn closed_up(state: State, record: &[u32], end: usize) -> State {
    let length = state.history.len();
    let mut history = [record, &state.history[end..]].concat();
    history.resize(length, 0);
    State { history, ..state }
}

#[cfg(test)]
mod tests {
    use super::*;
    use crate::calls::seeded::{squeezed, squeezed_made};
    use crate::calls::Move;
    use crate::second::page::{self, left, sound};
    use crate::second::{Call, Kind};

    /// The texts of a page, from the present one down, as undo after undo leaves them.
    fn texts_below(state: &State) -> Vec<Vec<u32>> {
        let mut state = state.clone();
        let mut texts = Vec::new();
        loop {
            texts.push(state.text[..state.page.length].to_vec());
            let undone = left(&state, &Call::Undo, &[]);
            if undone.answer.number != 0 {
                return texts;
            }
            state = undone.state;
        }
    }

    /// The texts from the present one up, as redo after redo leaves them.
    fn texts_above(state: &State) -> Vec<Vec<u32>> {
        let mut state = state.clone();
        let mut texts = Vec::new();
        while let redone @ page::Left { answer: Answer { number: 0, .. }, .. } = left(&state, &Call::Redo, &[]) {
            state = redone.state;
            texts.push(state.text[..state.page.length].to_vec());
        }
        texts
    }

    /// The states of lists before each squeeze, with the steps that it folds.
    fn before_squeezes(kind: Kind) -> Vec<(State, usize)> {
        let mut states = Vec::new();
        for list in squeezed(1, kind, 200).chain(squeezed_made(1, kind, 400)) {
            let mut state = list.start.clone();
            for item in &list.moves {
                let Move::Call(call) = item else { break };
                if let Call::Squeeze { steps, .. } = call {
                    states.push((state.clone(), *steps));
                }
                state = left(&state, call, &vec![0; call.room()]).state;
            }
        }
        states
    }

    #[test]
    fn only_the_folded_steps_are_gone() {
        let mut accepted = 0;
        for (state, steps) in Kind::ALL.into_iter().flat_map(before_squeezes) {
            let Ok(Squeezed { record, state: after }) = squeeze(&state, steps) else { continue };
            accepted += 1;
            // Sound again; the text as it was; undo goes through the same texts but those inside the fold, and redo
            // through the same.
            assert!(sound(&after).is_some(), "{}", after.page);
            assert_eq!(after.text, state.text);
            let mut texts = texts_below(&state);
            let opening = texts.len() - 1;
            texts.drain(opening - steps + 1..opening);
            assert_eq!(texts_below(&after), texts);
            assert_eq!(texts_above(&after), texts_above(&state));
            assert!(after.page.used < state.page.used && record == after.history[..record.len()]);
            assert!(after.history[after.page.used..].iter().all(|&word| word == 0));
        }
        assert!(accepted > 500, "{accepted}");
    }
}
