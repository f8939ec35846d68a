//! The ledger, after the section "The page" of document 01, with the mark of order 5 of document 02. "It takes nothing
//! from the page, the text buffer or the history."

use super::page::Page;
use super::page_file::Content;
use super::{Call, Elements, Kind};

/// "A step is a place, a count removed and the cells added."
#[derive(Clone, Debug, PartialEq, Eq)]
pub struct Step {
    pub place: usize,
    pub count: usize,
    pub cells: Vec<u32>,
}

impl Step {
    /// "3 for each standing step and one for each cell that it removes or adds"
    pub fn words(&self) -> usize {
        3 + self.count + self.cells.len()
    }

    /// The text with this step done.
    fn done_on(&self, text: &[u32]) -> Vec<u32> {
        let before = text.iter().take(self.place);
        let after = text.iter().skip(self.place.saturating_add(self.count));
        before.chain(&self.cells).chain(after).copied().collect()
    }
}

/// "It holds the reading of those bytes and two lists of steps, standing and undone." Order 5: the mark is "the one
/// that the same ledger now keeps by these rules".
#[derive(Clone, Debug, PartialEq, Eq)]
pub struct Ledger {
    kind: Kind,
    pub reading: Vec<u32>,
    pub standing: Vec<Step>,
    pub undone: Vec<Step>,
    pub saved: Option<usize>,
}

impl Ledger {
    /// "The **ledger** is fed the kind and the arrived bytes of an accepted open." There is none if they do not read.
    /// Order 5: "An accepted open sets it to 0".
    pub fn new(kind: Kind, arrived: &[u8]) -> Option<Ledger> {
        let reading = kind.read(arrived).ok()?;
        Some(Ledger { kind, reading, standing: Vec::new(), undone: Vec::new(), saved: Some(0) })
    }

    /// ", then each call with its arguments and whether it was accepted." A call of open belongs to another ledger.
    pub fn hear(&mut self, call: &Call, accepted: bool) {
        // "Save and every refused call change nothing", but for the mark, "there too set by accepted saves".
        if !accepted {
            return;
        }
        let done = self.words_done();
        match call {
            // "An accepted replace puts its step at the end of the standing list and empties the undone list."
            Call::Replace { place, count, cells } => {
                // "an accepted replace made while the mark exceeds the words done sets it to none"
                if self.saved > Some(done) {
                    self.saved = None;
                }
                self.standing.push(Step { place: *place, count: *count, cells: cells.clone() });
                self.undone.clear();
            }
            // "An accepted undo moves the last standing step, if any, to the front of the undone list."
            Call::Undo => {
                if let Some(step) = self.standing.pop() {
                    self.undone.insert(0, step);
                }
            }
            // "An accepted redo moves the first undone step, if any, to the end of the standing list."
            Call::Redo if !self.undone.is_empty() => self.standing.push(self.undone.remove(0)),
            // "an accepted save sets it to the words done"
            Call::Save { .. } => self.saved = Some(done),
            Call::Squeeze { steps, .. } => self.squeeze(*steps),
            Call::Redo | Call::Open { .. } | Call::Keep { .. } => {}
        }
    }

    /// Order 8: "an accepted one puts that one step into the ledger for the folded ones." "A saved mark, the ledger's
    /// too, strictly inside the fold becomes none; one at its end or later moves along."
    fn squeeze(&mut self, steps: usize) {
        let (fold, end) = (self.fold(steps), self.words_of(steps));
        self.saved = match self.saved {
            Some(mark) if mark >= end => Some(mark - end + fold.words()),
            mark => mark.filter(|&mark| mark == 0),
        };
        self.standing.splice(..steps.min(self.standing.len()), [fold]);
    }

    /// The step that stands for the oldest ones: "at place 0 it removes the whole opening text and adds the whole text
    /// as it was after those k".
    pub fn fold(&self, steps: usize) -> Step {
        let cells = self.standing.iter().take(steps).fold(self.reading.clone(), |text, step| step.done_on(&text));
        Step { place: 0, count: self.reading.len(), cells }
    }

    /// The words of the oldest steps.
    pub fn words_of(&self, steps: usize) -> usize {
        self.standing.iter().take(steps).map(Step::words).sum()
    }

    /// "The ledger's words done are 3 for each standing step and one for each cell that it removes or adds."
    pub fn words_done(&self) -> usize {
        self.words_of(self.standing.len())
    }

    /// '"unchanged" exactly when the mark equals the words done'
    pub fn is_unchanged(&self) -> bool {
        self.saved == Some(self.words_done())
    }

    /// "The ledger's text begins as the reading. Each standing step in order turns it into the cells before its place,
    /// the cells added, and the cells from place plus count on."
    pub fn text(&self) -> Vec<u32> {
        self.standing.iter().fold(self.reading.clone(), |text, step| step.done_on(&text))
    }

    /// What order 6 keeps of a page that has these steps: the removed cells of each are those of the text before it.
    pub fn content(&self, arrived: &[u8]) -> Content {
        let mut reached = self.reading.clone();
        let mut history = Vec::new();
        for step in self.standing.iter().chain(&self.undone) {
            let counts = [step.place, step.count, step.cells.len()].map(|number| number as u32);
            history.extend(counts);
            history.extend(reached.iter().skip(step.place).take(step.count));
            history.extend(&step.cells);
            reached = step.done_on(&reached);
        }
        let (text, saved) = (self.text(), self.saved);
        let (kind, opening, used) = (self.kind.number(), self.reading.len(), history.len());
        let page = Page { kind, opening, length: text.len(), used, done: self.words_done(), saved };
        Content { page, arrived: arrived.to_vec(), text, history }
    }

    /// "the writing of the ledger's text in the page's kind"
    pub fn writing(&self) -> Elements<u8> {
        self.kind.write(&self.text())
    }
}

#[cfg(test)]
mod tests {
    use super::*;

    fn replace(place: usize, count: usize, cells: &[u32]) -> Call {
        Call::Replace { place, count, cells: cells.to_vec() }
    }

    #[test]
    fn steps_stand_and_are_undone_in_order() {
        let mut ledger = Ledger::new(Kind::Utf7Body, b"abc").expect("a whole text");
        let mut after = |call: Call, accepted| {
            ledger.hear(&call, accepted);
            let text = String::from_utf8(ledger.writing().expect("writable cells")).expect("bytes of ASCII");
            (text, ledger.standing.len(), ledger.undone.len())
        };
        let left = |text: &str, standing, undone| (text.to_string(), standing, undone);
        assert_eq!(after(Call::Undo, true), left("abc", 0, 0));
        assert_eq!(after(replace(1, 1, &[0x58, 0x59]), true), left("aXYc", 1, 0));
        assert_eq!(after(replace(0, 2, &[]), true), left("Yc", 2, 0));
        assert_eq!(after(replace(2, 0, &[0x5A]), false), left("Yc", 2, 0));
        assert_eq!(after(replace(2, 0, &[0x5A]), true), left("YcZ", 3, 0));
        assert_eq!(after(Call::Undo, true), left("Yc", 2, 1));
        assert_eq!(after(Call::Undo, true), left("aXYc", 1, 2));
        assert_eq!(after(Call::Redo, true), left("Yc", 2, 1));
        assert_eq!(after(Call::Save { arrived: vec![], room: 9 }, true), left("Yc", 2, 1));
        assert_eq!(after(Call::Redo, false), left("Yc", 2, 1));
        assert_eq!(after(replace(0, 0, &[]), true), left("Yc", 3, 0));
        assert_eq!(after(Call::Redo, true), left("Yc", 3, 0));
    }

    #[test]
    fn the_mark_is_kept_by_its_own_words() {
        let mut ledger = Ledger::new(Kind::Utf7Body, b"abc").expect("a whole text");
        assert!(ledger.saved == Some(0) && ledger.is_unchanged());
        let mut after = |call: Call, accepted| {
            ledger.hear(&call, accepted);
            (ledger.words_done(), ledger.saved, ledger.is_unchanged())
        };
        let save = Call::Save { arrived: vec![], room: 9 };
        assert_eq!(after(replace(1, 2, &[0x58]), true), (6, Some(0), false));
        assert_eq!(after(save.clone(), false), (6, Some(0), false));
        assert_eq!(after(save.clone(), true), (6, Some(6), true));
        assert_eq!(after(replace(0, 0, &[]), true), (9, Some(6), false));
        assert_eq!(after(save.clone(), true), (9, Some(9), true));
        assert_eq!(after(Call::Undo, true), (6, Some(9), false));
        assert_eq!(after(Call::Redo, true), (9, Some(9), true));
        assert_eq!(after(Call::Undo, true), (6, Some(9), false));
        assert_eq!(after(replace(0, 0, &[]), false), (6, Some(9), false));
        assert_eq!(after(replace(0, 0, &[]), true), (9, None, false));
        assert_eq!(after(replace(0, 1, &[]), true), (13, None, false));
        assert_eq!(after(Call::Undo, true), (9, None, false));
        assert_eq!(after(save, true), (9, Some(9), true));
    }

    #[test]
    fn a_squeeze_puts_one_step_for_the_folded_ones() {
        let mut ledger = Ledger::new(Kind::Utf7Body, b"abc").expect("a whole text");
        let steps = [replace(0, 1, &[0x58]), replace(1, 2, &[0x59]), replace(2, 0, &[0x5A]), replace(0, 3, &[])];
        steps.iter().for_each(|step| ledger.hear(step, true));
        ledger.hear(&Call::Undo, true);
        let squeezed = |mark, steps, accepted| {
            let mut ledger = Ledger { saved: mark, ..ledger.clone() };
            let text = ledger.text();
            ledger.hear(&Call::Squeeze { steps, work: 0 }, accepted);
            assert_eq!((ledger.text(), ledger.undone.len()), (text, 1));
            (ledger.standing.len(), ledger.standing[0].clone(), ledger.saved)
        };
        // The steps have 5, 6 and 4 words, and the undone one 6; the folds 3 + 3 + 2 and 3 + 3 + 3.
        let two = Step { place: 0, count: 3, cells: vec![0x58, 0x59] };
        let three = Step { place: 0, count: 3, cells: vec![0x58, 0x59, 0x5A] };
        let marks = [(None, None), (Some(0), Some(0)), (Some(5), None), (Some(11), Some(8)), (Some(15), Some(12))];
        for (before, after) in marks.into_iter().chain([(Some(21), Some(18))]) {
            assert_eq!(squeezed(before, 2, true), (2, two.clone(), after));
        }
        for (before, after) in [(Some(11), None), (Some(15), Some(9)), (Some(21), Some(15))] {
            assert_eq!(squeezed(before, 3, true), (1, three.clone(), after));
        }
        assert_eq!(squeezed(Some(5), 2, false), (3, Step { place: 0, count: 1, cells: vec![0x58] }, Some(5)));
    }

    #[test]
    fn bytes_that_do_not_read_have_no_ledger() {
        assert_eq!(Ledger::new(Kind::Jp2, b"\x1B"), None);
    }
}
