//! Calls of the library, with all of the lent memory compared with what the second program says is left in it.

use std::collections::BTreeSet;
use std::fmt::UpperHex;

use super::subject::Subject;
use crate::lent::{filled, Element, Lent};
use crate::library::Function;
use crate::report::Statuses;
use crate::second::{outcome, Answer, Elements, Outcome};
use crate::trial::same;

/// A reader or writer of the library, and the second program's.
pub struct Call<'a, I, O> {
    /// How its checks are named.
    pub name: String,
    pub function: &'a Function<I, O>,
    pub second: fn(&[I]) -> Elements<O>,
    /// The elements of output that suffice for so many of input.
    pub enough: fn(usize) -> usize,
}

impl<I: Copy + UpperHex, O: Element> Subject for Call<'_, I, O> {
    type Element = I;
    type Expected = Elements<O>;

    fn name(&self) -> &str {
        &self.name
    }

    fn second(&self, input: &[I]) -> Elements<O> {
        (self.second)(input)
    }

    /// Compares with output of several lengths.
    fn compare(&self, input: &[I], elements: &Elements<O>, statuses: &mut Statuses) -> Result<(), String> {
        let needed = elements.as_ref().map_or((self.enough)(input.len()), Vec::len);
        for room in rooms(needed) {
            let expected = |before: &[O]| outcome(elements, before);
            let found = lend(room, |output| self.function.call(input, output), expected)?;
            statuses.count(self.function.name, found.answer.number);
        }
        Ok(())
    }
}

/// Lengths of output to try: none, too short, exact and longer.
pub fn rooms(needed: usize) -> BTreeSet<usize> {
    BTreeSet::from([0, 1, needed.saturating_sub(1), needed, needed + 1, needed + 9])
}

/// What an accepted call gives in this room.
pub fn given<T: Element>(room: usize, call: impl FnOnce(&mut [T]) -> Answer) -> Option<Vec<T>> {
    let mut output = filled(room);
    let answer = call(&mut output);
    output.truncate(answer.place);
    (answer.number == 0).then_some(output)
}

/// Lends a call an output of this length, and compares the answer and all of the memory with the outcome expected for
/// the output as it was.
pub fn lend<T: Element>(
    room: usize,
    call: impl FnOnce(&mut [T]) -> Answer,
    expected: impl FnOnce(&[T]) -> Outcome<T>,
) -> Result<Outcome<T>, String> {
    let before = filled(room);
    let mut lent = Lent::new(&before);
    let answer = call(lent.contents());

    let expected = expected(&before);
    if answer != expected.answer {
        return Err(format!("with room for {room} the answer is {answer} and not {}", expected.answer));
    }
    let returned = lent.take_back().and_then(|output| same(&expected.output, &output, 0).map(|()| output));
    let output =
        returned.map_err(|difference| format!("with room for {room} the answer is {answer}, and then {difference}"))?;
    Ok(Outcome { answer, output })
}
