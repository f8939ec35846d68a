//! The listers.

use super::subject::Subject;
use crate::formats::{Format, Lister};
use crate::program::Program;
use crate::report::{Report, Statuses};
use crate::rng::Rng;
use crate::second::{listed, print_listing, Elements, LIMIT, LISTER_LIMIT};
use crate::texts::{self, lengths, Source};
use crate::trial::{quote, try_examples, QUOTED};

/// A lister, and the second program's reader of its format.
struct Listing {
    /// How its checks are named.
    name: String,
    lister: Program,
    read: fn(&[u8]) -> Elements<u32>,
}

impl Subject for Listing {
    type Element = u8;
    type Expected = Elements<u32>;

    fn name(&self) -> &str {
        &self.name
    }

    fn second(&self, text: &[u8]) -> Elements<u32> {
        listed(self.read, text)
    }

    fn compare(&self, text: &[u8], cells: &Elements<u32>, statuses: &mut Statuses) -> Result<(), String> {
        compare_printed(&self.lister, text, &print_listing(cells), statuses)
    }
}

pub fn run(report: &mut Report, format: &Format, lister: &Lister, seed: u64) {
    let name = format!("{}-lister", format.name);
    let subject = Listing { name, lister: Program::new(lister.name), read: format.read };
    let name = format!("{}-printed", subject.name);
    report.check(&name, "listings printed out in document 01 and like them", |statuses| {
        try_examples(&lister.listings, |example| {
            compare_printed(&subject.lister, &example.input, example.expected, statuses)
        })
    });
    subject.check_groups(report, &format.readings);
    subject.check(report, "limit", "texts at the lister's limit and beyond it", at_limit(format.source));
    let short = texts::up_to_two_bytes().take(1 + 256);
    subject.check(report, "one-byte", "every text of no byte and of one", short);
    let what = "seeded texts of two bytes, and each byte after the one that opens an escape or run";
    subject.check(report, "two-bytes", what, two_bytes(format.source.opener, seed));
    let seeded = format.source.texts(seed, "texts for listers", 3_000, lengths::for_listers);
    subject.check(report, "seeded", "seeded texts, whole and damaged", seeded);
    report.expect_statuses(lister.name, &format.statuses(&[0, 16]));
}

/// Texts around the greatest length, with faults early, late and none.
fn at_limit(source: &Source) -> impl Iterator<Item = Vec<u8>> + '_ {
    let near = [LISTER_LIMIT - 1, LISTER_LIMIT, LISTER_LIMIT + 1];
    let far = [LIMIT, LIMIT + 1, 200_000].map(|length| vec![b'a'; length]);
    near.into_iter().flat_map(|length| source.texts_of_length(length)).chain(far)
}

fn two_bytes(opener: u8, seed: u64) -> impl Iterator<Item = Vec<u8>> {
    let mut rng = Rng::new(seed, "two bytes");
    let any = (0..2_000).map(move |_| vec![rng.below(256) as u8, rng.below(256) as u8]);
    (0..=255).map(move |byte| vec![opener, byte]).chain(any)
}

/// Compares what the lister prints with what it is to print.
fn compare_printed(lister: &Program, text: &[u8], expected: &str, statuses: &mut Statuses) -> Result<(), String> {
    let printed = lister.run(text)?;
    if let Some(status) = printed_status(&printed) {
        statuses.count(lister.name, status);
    }
    let expected = expected.as_bytes();
    if printed == expected {
        return Ok(());
    }
    let same = printed.iter().zip(expected).take_while(|(left, right)| left == right).count();
    let start = same.saturating_sub(QUOTED / 2);
    Err(format!("from byte {start} on it printed {} and not {}", quote(&printed[start..]), quote(&expected[start..])))
}

/// The number in the first line of a listing.
fn printed_status(printed: &[u8]) -> Option<u32> {
    let text = std::str::from_utf8(printed).ok()?;
    text.lines().next()?.strip_prefix("status=")?.parse().ok()
}
