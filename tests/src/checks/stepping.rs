//! The library's steps through a text.

use super::cursors::{self, HandMade};
use super::reading::check_on_texts;
use super::subject::Subject;
use crate::formats::Format;
use crate::lent::Lent;
use crate::library::steps::{Cursor, Stepped, Stepper};
use crate::report::{Report, Statuses};
use crate::second::{Complete, Steps};
use crate::trial::{same, try_all};

/// The steps of the library, and the second program's.
struct Stepping<'a, C> {
    /// How its checks are named.
    name: String,
    stepper: &'a Stepper<C>,
    second: fn(&[u8]) -> Steps,
    second_from: fn(&[u8], &[u64]) -> Steps,
    has_runs: bool,
}

impl<C: Cursor> Subject for Stepping<'_, C> {
    type Element = u8;
    type Expected = Steps;

    fn name(&self) -> &str {
        &self.name
    }

    fn second(&self, text: &[u8]) -> Steps {
        (self.second)(text)
    }

    fn compare(&self, text: &[u8], expected: &Steps, statuses: &mut Statuses) -> Result<(), String> {
        self.go_through(text, (self.stepper.start)(), expected, statuses)?;
        are_lawful(&expected.cells, text.len(), self.has_runs)
    }
}

impl<C: Cursor> Stepping<'_, C> {
    /// Compares all steps from a cursor with those expected, and the final one three times more.
    fn go_through(&self, text: &[u8], from: C, expected: &Steps, statuses: &mut Statuses) -> Result<(), String> {
        on_lent(text, |text| {
            let reached = self.hand_out(text, from, &expected.cells)?;
            let last = (self.stepper.step)(text, reached);
            statuses.count(self.stepper.name, last.answer.number);
            is_step(&last, &Stepped::last(expected.answer, reached))
                .map_err(|difference| format!("after the last cell {difference}"))?;
            self.stays(text, &last)
        })
    }

    /// Steps through these cells from a cursor, and gives the cursor behind the last.
    fn hand_out(&self, text: &[u8], from: C, cells: &[Complete]) -> Result<C, String> {
        let mut cursor = from;
        // A cursor made by hand may have counted more cells than bytes lie before it, and is not believed.
        let (at, handed) = from.place();
        for (index, &complete) in cells.iter().enumerate() {
            let found = (self.stepper.step)(text, cursor);
            cursor = found.next;
            is_step(&found, &Stepped::cell(complete, cursor))
                .map_err(|difference| format!("for cell {index} {difference}"))?;
            // The cursor stands behind the cell, and has counted it.
            if cursor.place() != (complete.end, handed.min(at) + index + 1) {
                let end = complete.end;
                return Err(format!("after cell {index}, which ends at {end}, the next step starts from {cursor:?}"));
            }
        }
        Ok(cursor)
    }

    /// That a final step, made three times again, gives the same.
    fn stays(&self, text: &[u8], last: &Stepped<C>) -> Result<(), String> {
        for _ in 0..3 {
            let again = (self.stepper.step)(text, last.next);
            is_step(&again, last).map_err(|difference| format!("after the final step {difference}"))?;
        }
        Ok(())
    }

    /// Compares the steps from a cursor made by hand.
    fn compare_by_hand(&self, HandMade { text, cursor }: &HandMade<C>, statuses: &mut Statuses) -> Result<(), String> {
        let expected = (self.second_from)(text, &cursor.numbers());
        if expected.cells.len() > text.len() {
            return Err("more cells are handed out than there are bytes".to_string());
        }
        if expected.answer.number == 0 && expected.answer.place > text.len() {
            return Err("more cells are counted than there are bytes".to_string());
        }
        self.go_through(text, *cursor, &expected, statuses)
    }
}

/// The laws of where cells stand in a text of this length: each has bytes, they are bytes of the text, no later cell
/// begins or ends before an earlier one, and only in runs a letter is shared, by two neighbours.
fn are_lawful(cells: &[Complete], length: usize, has_runs: bool) -> Result<(), String> {
    // Outside runs no cell of a format with runs has more bytes than `+-`.
    let is_in_run = |complete: &Complete| has_runs && complete.end - complete.begin > 2;
    let mut before = Complete { cell: 0, begin: 0, end: 0 };
    for (index, &complete) in cells.iter().enumerate() {
        let Complete { begin, end, .. } = complete;
        let shared = before.end.saturating_sub(begin);
        let may_share = usize::from(is_in_run(&before) && is_in_run(&complete));
        if begin >= end || end > length || begin < before.begin || end < before.end || shared > may_share {
            return Err(format!("cell {index} is in {begin}..{end}, after one in {}..{}", before.begin, before.end));
        }
        before = complete;
    }
    Ok(())
}

/// Lends a text, and asks that it is as it was in the end.
fn on_lent(text: &[u8], run: impl FnOnce(&[u8]) -> Result<(), String>) -> Result<(), String> {
    let mut lent = Lent::new(text);
    run(lent.contents())?;
    lent.take_back().and_then(|after| same(text, &after, 0)).map_err(|difference| format!("in the text, {difference}"))
}

fn is_step<C: Cursor>(found: &Stepped<C>, expected: &Stepped<C>) -> Result<(), String> {
    if found == expected {
        return Ok(());
    }
    Err(format!("the step is: {found}, and not: {expected}"))
}

pub fn run<C: Cursor>(report: &mut Report, format: &Format, stepper: &Stepper<C>, seed: u64) {
    let Format { name, steps: second, steps_from: second_from, has_runs, .. } = *format;
    let subject = Stepping { name: format!("{name}-step"), stepper, second, second_from, has_runs };
    subject.check_groups(report, &format.steppings);
    let examples = format.readings.iter().flat_map(|group| &group.examples).map(|example| example.input.clone());
    subject.check(report, "examples", "the examples of reading, stepped through", examples);
    check_on_texts(report, &subject, format, seed);
    let what = "steps from cursors made by hand";
    report.check(&format!("{}-by-hand", subject.name), what, |statuses| {
        let inputs = cursors::seeded(stepper, format.source, seed, 100_000);
        try_all(inputs, |input| subject.compare_by_hand(input, statuses))
    });
    report.expect_statuses(stepper.name, &format.statuses(&[0, 16]));
}

#[cfg(test)]
mod tests {
    use super::*;
    use crate::formats;
    use crate::second::{Answer, LIMIT};

    /// A cursor that counts the bytes and the cells behind it.
    #[derive(Clone, Copy, Debug, PartialEq, Eq)]
    struct Counts(usize, usize);

    impl Cursor for Counts {
        fn place(&self) -> (usize, usize) {
            (self.0, self.1)
        }

        fn numbers(&self) -> Vec<u64> {
            vec![self.0 as u64, self.1 as u64]
        }

        fn of_numbers(numbers: &[u64]) -> Counts {
            Counts(numbers[0] as usize, numbers[1] as usize)
        }
    }

    /// A step by the second program.
    fn second(text: &[u8], cursor: Counts) -> Stepped<Counts> {
        let Steps { cells, answer } = (formats::utf7().steps)(text);
        match cells.get(cursor.1) {
            Some(&complete) => Stepped::cell(complete, Counts(complete.end, cursor.1 + 1)),
            None => Stepped::last(answer, cursor),
        }
    }

    /// All steps by the second program from a cursor with these numbers.
    fn second_from(text: &[u8], numbers: &[u64]) -> Steps {
        let Steps { mut cells, answer } = (formats::utf7().steps)(text);
        cells.drain(..cells.len().min(numbers[1] as usize));
        Steps { cells, answer }
    }

    fn stepping(stepper: &Stepper<Counts>) -> Stepping<'_, Counts> {
        Stepping { name: String::new(), stepper, second: formats::utf7().steps, second_from, has_runs: true }
    }

    /// Whether steps are as the second program says, on a few texts.
    fn passes(step: fn(&[u8], Counts) -> Stepped<Counts>) -> bool {
        let stepper = Stepper { name: "step", start: || Counts(0, 0), step };
        let subject = stepping(&stepper);
        let is_same = |text: &[u8]| subject.compare(text, &subject.second(text), &mut Statuses::default()).is_ok();
        [&b"A+ImIDkQ."[..], b"+AKN-", b"", b"ab~", &vec![b'a'; LIMIT + 1]].into_iter().all(is_same)
    }

    /// Whether steps from cursors made by hand are as the second program says.
    fn passes_by_hand(step: fn(&[u8], Counts) -> Stepped<Counts>) -> bool {
        let stepper = Stepper { name: "step", start: || Counts(0, 0), step };
        let cursors = [(0, 0), (1, 1), (4, 3), (7, 7), (usize::MAX, usize::MAX)];
        cursors.into_iter().all(|(at, handed)| {
            let input = HandMade { text: b"a+-b~".to_vec(), cursor: Counts(at, handed) };
            stepping(&stepper).compare_by_hand(&input, &mut Statuses::default()).is_ok()
        })
    }

    #[test]
    fn the_second_program_is_as_it_says() {
        assert!(passes(second) && passes_by_hand(second));
    }

    #[test]
    fn another_cell_or_answer_is_noticed() {
        assert!(!passes(|text, cursor| Stepped { cell: 0x41, ..second(text, cursor) }));
        assert!(!passes(|text, cursor| Stepped { answer: Answer { number: 0, place: 0 }, ..second(text, cursor) }));
        assert!(!passes(|text, cursor| Stepped { given: 1, ..second(text, cursor) }));
    }

    #[test]
    fn other_bytes_of_a_cell_are_noticed() {
        let late = |text: &[u8], cursor| match second(text, cursor) {
            step if step.end > step.begin + 2 => Stepped { begin: step.begin + 1, ..step },
            step => step,
        };
        let short = |text: &[u8], cursor| match second(text, cursor) {
            step if step.end > step.begin + 1 => Stepped { end: step.end - 1, ..step },
            step => step,
        };
        let at_end = |text: &[u8], cursor| match second(text, cursor) {
            step if step.given == 0 => Stepped { end: text.len(), ..step },
            step => step,
        };
        assert!(!passes(late) && passes_by_hand(late));
        assert!(!passes(short) && !passes_by_hand(short));
        assert!(!passes(at_end) && !passes_by_hand(at_end));
    }

    #[test]
    fn a_final_step_that_moves_on_is_noticed() {
        let moves_on = |text: &[u8], cursor: Counts| match second(text, cursor) {
            last if last.given == 0 => Stepped { next: Counts(cursor.0, cursor.1.wrapping_add(1)), ..last },
            step => step,
        };
        assert!(!passes(moves_on) && !passes_by_hand(moves_on));
    }

    #[test]
    fn cells_withheld_for_a_later_fault_are_noticed() {
        assert!(!passes(|text, cursor| match (formats::utf7().steps)(text).answer {
            answer if answer.number != 0 => Stepped::last(answer, cursor),
            _ => second(text, cursor),
        }));
    }

    #[test]
    fn a_cell_of_a_text_over_the_limit_is_noticed() {
        assert!(!passes(|text, cursor| second(&text[..text.len().min(LIMIT)], cursor)));
    }

    #[test]
    fn steps_that_do_not_end_are_noticed() {
        assert!(!passes_by_hand(|_, cursor| Stepped::cell(Complete { cell: 0, begin: 0, end: 1 }, cursor)));
    }

    fn lawful(spans: &[(usize, usize)], has_runs: bool) -> bool {
        let cells: Vec<Complete> = spans.iter().map(|&(begin, end)| Complete { cell: 0, begin, end }).collect();
        are_lawful(&cells, 9, has_runs).is_ok()
    }

    #[test]
    fn cells_that_stand_against_the_laws_are_noticed() {
        assert!(lawful(&[(0, 1), (2, 5), (4, 8), (8, 9)], true));
        assert!(!lawful(&[(0, 1), (2, 5), (4, 8), (8, 9)], false));
        assert!(lawful(&[(0, 3), (3, 5), (5, 6)], false));
        for spans in [&[(1, 1)][..], &[(9, 10)], &[(2, 5), (1, 6)], &[(2, 6), (5, 6), (5, 6)], &[(2, 5), (3, 7)]] {
            assert!(!lawful(spans, true), "{spans:?}");
        }
        assert!(!lawful(&[(2, 5), (4, 5)], true) && !lawful(&[(2, 4), (3, 6)], true));
    }

    #[test]
    fn the_second_program_keeps_the_laws() {
        for format in formats::all() {
            for text in format.source.texts(1, "laws", 5_000, |rng| rng.below(200)) {
                let Steps { cells, .. } = (format.steps)(&text);
                assert_eq!(are_lawful(&cells, text.len(), format.has_runs), Ok(()), "{}", text.escape_ascii());
            }
        }
    }
}
