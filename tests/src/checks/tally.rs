//! The library's tally of JP-2 cells.

use super::call::lend;
use super::check_on_lists;
use super::subject::Subject;
use crate::examples;
use crate::library::{self, JP2_TALLY};
use crate::report::{Report, Statuses};
use crate::second::{jp2, Outcome};
use crate::texts::Source;

/// The tally, and the second program's.
struct Tally;

impl Subject for Tally {
    type Element = u32;
    type Expected = Outcome<u32>;

    fn name(&self) -> &str {
        "jp2-tally"
    }

    fn second(&self, cells: &[u32]) -> Outcome<u32> {
        jp2::tally(cells)
    }

    fn compare(&self, cells: &[u32], expected: &Outcome<u32>, statuses: &mut Statuses) -> Result<(), String> {
        let call = |output: &mut [u32]| library::jp2_tally(cells, output.try_into().expect("nine counts"));
        let found = lend(9, call, |_| expected.clone())?;
        statuses.count(JP2_TALLY, found.answer.number);
        // "Their sum is the number of cells."
        let sum: usize = found.output.iter().map(|&count| count as usize).sum();
        if found.answer.number == 0 && sum != cells.len() {
            return Err(format!("the counts add up to {sum}"));
        }
        Ok(())
    }
}

pub fn run(report: &mut Report, source: &Source, seed: u64) {
    Tally.check_groups(report, &examples::jp2::tallies());
    check_on_lists(report, &Tally, source, seed);
    report.expect_statuses(JP2_TALLY, &[0, 10, 16]);
}
