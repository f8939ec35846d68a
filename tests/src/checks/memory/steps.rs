//! Steps, from the start and from cursors made by hand.

use super::{name, on_both_sides, WHAT};
use crate::checks::cursors::{self, HandMade};
use crate::formats::Format;
use crate::guarded::Guarded;
use crate::library::steps::{Cursor, Stepped, Stepper};
use crate::report::Report;
use crate::second::LIMIT;
use crate::settings::Settings;
use crate::trial::try_all;

pub fn run<C: Cursor>(report: &mut Report, format: &Format, stepper: &Stepper<C>, settings: Settings) {
    let mut memory = Guarded::new();
    report.check(&name(stepper.name), WHAT, |statuses| {
        try_all(inputs(format, stepper, settings), |input| {
            let last = on_both_sides(|side| walk(stepper, memory.lend_to_read(&input.text, side), input.cursor))?;
            statuses.count(stepper.name, last.answer.number);
            Ok(())
        })
    });
    report.expect_statuses(stepper.name, &format.statuses(&[0, 16]));
}

/// The last of the steps from a cursor that hand out cells, and of one step for each byte.
fn walk<C: Cursor>(stepper: &Stepper<C>, text: &[u8], cursor: C) -> Stepped<C> {
    let mut last = (stepper.step)(text, cursor);
    for _ in text {
        if last.given == 0 {
            break;
        }
        last = (stepper.step)(text, last.next);
    }
    last
}

/// Texts with cursors made by hand, as many with the first cursor; and texts at the limit and over it.
fn inputs<'a, C: Cursor>(
    format: &'a Format,
    stepper: &'a Stepper<C>,
    settings: Settings,
) -> impl Iterator<Item = HandMade<C>> + 'a {
    let by_hand = || cursors::seeded(stepper, format.source, settings.seed, settings.rounds / 2);
    let at_start = |text| HandMade { text, cursor: (stepper.start)() };
    let at_limit = [LIMIT, LIMIT + 1].into_iter().flat_map(|length| format.source.texts_of_length(length));
    by_hand().chain(by_hand().map(move |input| at_start(input.text))).chain(at_limit.map(at_start))
}
