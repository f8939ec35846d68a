//! The checks: what the built programs give, compared with the papers and with the second program.

mod benches;
mod call;
mod cursors;
mod desk;
mod grammar;
mod icu;
mod joining;
mod lister;
mod memory;
mod page;
mod page_file;
mod peers;
mod plain;
mod reading;
mod same_letter;
mod same_program;
mod spelling;
mod squeeze;
mod stepping;
mod subject;
mod subject_line;
mod tally;
mod writing;

use crate::formats::{self, Format};
use crate::library::steps::Cursor;
use crate::library::{self, Functions};
use crate::parts::Part;
use crate::report::Report;
use crate::second::LIMIT;
use crate::settings::Settings;
use crate::texts::lengths::{LONG, OLD_LIMIT};
use crate::texts::{self, Source};
use icu::Icu;
use subject::Subject;

/// Every part of the comparison. A format is a line here, and so is a program that is no lister.
pub fn parts(settings: Settings) -> Vec<Part> {
    let seed = settings.seed;
    let tally = Part::new("jp2-tally", move |report| tally::run(report, &texts::jp2::SOURCE, seed));
    let mut parts = Vec::new();
    parts.extend(of_format(formats::utf7, &library::UTF7, icu::UTF7, seed));
    parts.extend(of_format(formats::jp2, &library::JP2, icu::JP2, seed));
    parts.push(tally);
    parts.push(Part::new("jp2-grammar", move |report| grammar::run(report, seed)));
    parts.push(Part::new("jp2-plain", move |report| plain::run(report, seed)));
    parts.extend(of_format(formats::mailbox, &library::MAILBOX, icu::MAILBOX, seed));
    parts.push(Part::new("mailbox-spelling", move |report| spelling::run(report, seed)));
    parts.push(Part::new("subject", move |report| subject_line::run(report, seed)));
    parts.extend(same_letter::parts(seed));
    parts.extend(page::parts(seed));
    parts.extend(page_file::parts(seed));
    parts.extend(squeeze::parts(seed));
    parts.extend(benches::parts(seed));
    parts.extend(memory::parts(settings));
    parts.extend(desk::parts(seed));
    parts.push(Part::aside("peers", move |report| peers::run(report, seed)));
    parts.push(Part::aside("peers-subject", move |report| peers::run_subject(report, seed)));
    parts
}

/// The parts of a format: its lister, its reader, this on texts joined, its steps, these against ICU, and its writers.
fn of_format<C: Cursor>(format: fn() -> Format, library: &'static Functions<C>, icu: Icu, seed: u64) -> Vec<Part> {
    let Format { name, lister, writers, .. } = format();
    assert_eq!(writers.len(), library.write.len(), "a function for each writer");
    let lister = lister
        .map(|lister| Part::new(format!("{name}-lister"), move |report| lister::run(report, &format(), &lister, seed)));
    let read = Part::new(format!("{name}-read"), move |report| reading::run(report, &format(), &library.read, seed));
    let joined =
        Part::new(format!("{name}-joined"), move |report| joining::run(report, &format(), &library.read, seed));
    let step = Part::new(format!("{name}-step"), move |report| stepping::run(report, &format(), &library.step, seed));
    let icu = Part::new(format!("{name}-icu"), move |report| icu::run(report, &format(), &library.step, icu, seed));
    let write = writers.into_iter().zip(library.write).map(|(writer, write)| {
        Part::new(format!("{}-write", writer.name), move |report| {
            writing::run(report, &format(), &writer, write, &library.read, seed);
        })
    });
    lister.into_iter().chain([read, joined, step, icu]).chain(write).collect()
}

/// The seeded lists that writers and the tally are tried on.
fn seeded_lists(source: &Source, seed: u64) -> impl Iterator<Item = Vec<u32>> + '_ {
    source.lists(seed, "lists", 200_000)
}

/// Checks a writer or the tally against the second program.
fn check_on_lists(report: &mut Report, subject: &impl Subject<Element = u32>, source: &Source, seed: u64) {
    let lone = (source.lone_cells)().into_iter().map(|cell| vec![cell]);
    subject.check(report, "lone-cells", "each writable cell by itself, and many that are not writable", lone);
    subject.check(report, "seeded", "seeded lists", seeded_lists(source, seed));
    let old = OLD_LIMIT.flat_map(|length| source.lists_of_length(length));
    subject.check(report, "old-limit", "lists of about 65,536 cells", old);
    let long = source.long_lists(seed, LONG);
    subject.check(report, "long", "seeded lists near the limit and over it, writable and not", long);
    let near = [LIMIT - 1, LIMIT, LIMIT + 1].into_iter().flat_map(|length| source.lists_of_length(length));
    subject.check(report, "limit", "lists at the limit and one off it", near);
}
