//! Squeezing, compared with the second program, which really undoes the steps, and with the ledger.

use super::page::{self, demand3};
use crate::calls::{seeded, squeezes, List};
use crate::examples::squeeze::{courses, judged};
use crate::library::squeeze::SQUEEZE;
use crate::parts::Part;
use crate::report::Report;
use crate::second::Kind;
use crate::trial::{try_all, try_examples};

/// The examples, and a part for each kind of page.
pub fn parts(seed: u64) -> Vec<Part> {
    let of_kind =
        |kind: Kind| Part::new(format!("page-squeeze-{}", kind.name()), move |report| check_kind(report, kind, seed));
    [Part::new("page-squeeze-examples", check_examples)].into_iter().chain(Kind::ALL.map(of_kind)).collect()
}

fn check_examples(report: &mut Report) {
    report.check("page-squeeze-courses", "steps folded, undone and redone, step by step", |statuses| {
        try_examples(&courses(), |course| page::follow_course(course, statuses))
    });
    report.check("page-squeeze-by-hand", "squeezes of pages made by hand, in the order of the numbers", |statuses| {
        try_examples(&judged(), |example| page::compare_judged(example, statuses))
    });
}

fn check_kind(report: &mut Report, kind: Kind, seed: u64) {
    let lists = || seeded::squeezed(seed, kind, 2_000);
    let name = format!("page-squeeze-{}", kind.name());
    let mut check = |check: &str, what: &str, lists: &mut dyn Iterator<Item = List>| {
        report.check(&format!("{name}-{check}"), what, |statuses| try_all(lists, |list| page::follow(list, statuses)));
    };
    check(
        "every",
        "every number of steps, with every mark and many work buffers",
        &mut squeezes::lists(seed, kind, 60),
    );
    check("lists", "seeded lists of calls with squeezes", &mut lists());
    check("made", "squeezes on pages made by hand", &mut seeded::squeezed_made(seed, kind, 3_000));
    check("limit", "as many steps as can be", &mut squeezes::at_limit(kind).into_iter());
    let what = "demand 3, by the ledger, after each call of these lists";
    report.check(&format!("{name}-demand-3"), what, |_| try_all(lists(), |list| demand3::follow(list, &page::BUILT)));
    report.expect_statuses(SQUEEZE, &[0, 9, 11, 14, 16, 19]);
}
