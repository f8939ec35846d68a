//! Order 14 of document 02: subject lines, read and written, and written lines read back.

use super::call::{given, Call};
use super::subject::Subject;
use crate::examples::subject as examples;
use crate::library;
use crate::report::Report;
use crate::second::{subject as second, LIMIT};
use crate::texts::subject::{self as texts, SHARED, SOURCE};
use crate::trial::{quote, show, try_all};

/// "n units need at most 78 n bytes": a word's 75 characters, and CR, LF and a space.
const PER_UNIT: usize = 78;

pub fn run(report: &mut Report, seed: u64) {
    let reader = Call {
        name: "subject-read".to_string(),
        function: &library::SUBJECT_READ,
        second: second::read,
        enough: |bytes| bytes,
    };
    reader.check_groups(report, &examples::readings());
    for alphabet in SOURCE.alphabets {
        reader.check(report, alphabet.name, alphabet.what, alphabet.texts());
    }
    let what = "words with an `=` before every two bytes, and with every byte as a pair";
    reader.check(report, "pairs", what, texts::pairs());
    let what = "words of about 75 characters, with all that matters at their ends";
    reader.check(report, "long-words", what, texts::long_words());
    let shared = SHARED.iter().flat_map(|units| texts::shared(units));
    reader.check(report, "shared", "texts shared among words in every way, runs at their ends left open too", shared);
    let lines = SOURCE.texts(seed, "lines", 30_000, |rng| rng.below(400));
    reader.check(report, "seeded", "seeded lines, whole and damaged", lines);
    let longer = SOURCE.texts(seed, "longer lines", 200, |rng| rng.below(20_000));
    reader.check(report, "longer", "longer seeded lines, whole and damaged", longer);
    let near = [LIMIT - 1, LIMIT, LIMIT + 1]
        .into_iter()
        .flat_map(|length| SOURCE.texts_of_length(length).chain([texts::line_of(length)]));
    reader.check(report, "limit", "lines at the limit and one off it", near);
    report.expect_statuses(library::SUBJECT_READ.name, &[0, 1, 2, 3, 4, 9, 16, 21]);

    let writer = Call {
        name: "subject-write".to_string(),
        function: &library::SUBJECT_WRITE,
        second: second::write,
        enough: |units| PER_UNIT * units,
    };
    writer.check_groups(report, &examples::writings());
    let lone = (SOURCE.lone_cells)().into_iter().map(|unit| vec![unit]);
    writer.check(report, "lone-cells", "each unit by itself, and many cells that are none", lone);
    writer.check(report, "full-words", "words that are about full where all that matters comes", texts::full_words());
    writer.check(report, "seeded", "seeded lists", SOURCE.lists(seed, "lists", 30_000));
    // The second program tries every length of a word, which takes its time: few lists are long.
    writer.check(
        report,
        "long",
        "seeded lists near the limit and over it, writable and not",
        SOURCE.long_lists(seed, 1),
    );
    let near = [LIMIT, LIMIT + 1].into_iter().flat_map(|length| SOURCE.lists_of_length(length));
    writer.check(report, "limit", "lists at the limit and over it", near);
    report.expect_statuses(library::SUBJECT_WRITE.name, &[0, 9, 10, 16]);

    let what = "\"however units are shared among them\": every line of a text reads as the text, by the library alone";
    report.check("subject-shares", what, |_| every_share());
    let what = "\"a line written within the limit restores the units\": seeded lists, by the library alone";
    report.check("subject-round-trip", what, |_| try_all(SOURCE.lists(seed, "subjects", 30_000), restores));
}

/// How many lines there are in which a text is shared among words, if each reads as the text.
fn every_share() -> Result<usize, String> {
    let mut count = 0;
    for units in SHARED {
        for line in texts::shared(units) {
            reads_as(&line, units).map_err(|difference| format!("on {}: {difference}", quote(&line)))?;
            count += 1;
        }
    }
    Ok(count)
}

fn restores(units: &Vec<u32>) -> Result<(), String> {
    let line = given(PER_UNIT * units.len(), |line| library::SUBJECT_WRITE.call(units, line));
    let Some(line) = line.filter(|line| line.len() <= LIMIT) else { return Ok(()) };
    reads_as(&line, units)
}

/// That the library reads a line as these units, with just the room for them.
fn reads_as(line: &[u8], units: &[u32]) -> Result<(), String> {
    match given(units.len(), |cells| library::SUBJECT_READ.call(line, cells)) {
        Some(cells) if cells == units => Ok(()),
        Some(cells) => Err(format!("its line reads as {}", show(&cells))),
        None => Err("its line is refused".to_string()),
    }
}
