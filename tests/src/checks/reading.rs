//! The library's readers.

use super::call::Call;
use super::subject::Subject;
use crate::formats::Format;
use crate::library::Function;
use crate::report::Report;
use crate::second::LIMIT;
use crate::texts;
use crate::texts::lengths::{self, LONG, OLD_LIMIT};

pub fn run(report: &mut Report, format: &Format, function: &Function<u8, u32>, seed: u64) {
    // No byte gives more than one cell.
    let subject = Call { name: format!("{}-read", format.name), function, second: format.read, enough: |bytes| bytes };
    subject.check_groups(report, &format.readings);
    check_on_texts(report, &subject, format, seed);
    report.expect_statuses(function.name, &format.statuses(&[0, 9, 16]));
}

/// Checks what reads texts of a format against the second program.
pub fn check_on_texts(report: &mut Report, subject: &impl Subject<Element = u8>, format: &Format, seed: u64) {
    let source = format.source;
    subject.check(report, "two-bytes", "every text of no byte, one and two", texts::up_to_two_bytes());
    for alphabet in source.alphabets {
        subject.check(report, alphabet.name, alphabet.what, alphabet.texts());
    }
    let short = source.texts(seed, "texts for the library", 200_000, lengths::mostly_short);
    subject.check(report, "seeded", "seeded texts, whole and damaged", short);
    let longer = source.texts(seed, "longer texts for the library", 2_000, |rng| rng.below(20_000));
    subject.check(report, "longer", "longer seeded texts, whole and damaged", longer);
    let old = OLD_LIMIT.flat_map(|length| source.texts_of_length(length));
    subject.check(report, "old-limit", "texts of about 65,536 bytes, with a fault of each kind", old);
    let long = source.long_texts(seed, LONG);
    subject.check(report, "long", "seeded texts near the limit and over it, whole and damaged", long);
    let near = [LIMIT - 1, LIMIT, LIMIT + 1].into_iter().flat_map(|length| source.texts_of_length(length));
    subject.check(report, "limit", "texts at the limit and one off it, with a fault of each kind", near);
}
