//! The library's writers, and the way back through its readers.

use super::call::{lend, Call};
use super::subject::Subject;
use super::{check_on_lists, seeded_lists};
use crate::formats::{Format, Writer};
use crate::library::Function;
use crate::report::Report;
use crate::second::{outcome, Answer, LIMIT};
use crate::texts::lengths;
use crate::trial::try_all;

pub fn run(
    report: &mut Report,
    format: &Format,
    writer: &Writer,
    write: &Function<u32, u8>,
    read: &Function<u8, u32>,
    seed: u64,
) {
    let name = format!("{}-write", writer.name);
    let subject = Call { name, function: write, second: writer.write, enough: writer.enough };
    subject.check_groups(report, &writer.writings);
    check_on_lists(report, &subject, format.source, seed);
    report.expect_statuses(write.name, &[0, 9, 10, 16]);

    let what = "writable seeded lists, and cells of seeded texts, written and read back by the library";
    report.check(&format!("{}-round-trip", writer.name), what, |_| {
        try_all(writable_lists(format, writer, seed), |cells| {
            // In the room that always suffices.
            let mut text = vec![0; (writer.enough)(cells.len())];
            let written = write.call(cells, &mut text);
            match text.get(..written.place) {
                Some(text) if written.number == 0 => reads_back(read, text, cells),
                _ => Err(format!("writing gives {written:?}")),
            }
        })
    });
}

fn writable_lists<'a>(format: &'a Format, writer: &'a Writer, seed: u64) -> impl Iterator<Item = Vec<u32>> + 'a {
    let written = seeded_lists(format.source, seed).filter(|list| (writer.write)(list).is_ok());
    let texts = format.source.texts(seed, "texts to write again", 3_000, lengths::for_listers);
    written.chain(texts.filter_map(|text| (format.read)(&text).ok()))
}

/// That a written text, where it is within the limit, reads as these cells.
fn reads_back(read: &Function<u8, u32>, text: &[u8], cells: &[u32]) -> Result<(), String> {
    let refusal = Answer { number: 16, place: LIMIT };
    let expected = if text.len() > LIMIT { Err(refusal) } else { Ok(cells.to_vec()) };
    let back = lend(cells.len(), |output| read.call(text, output), |before| outcome(&expected, before));
    back.map(drop).map_err(|difference| format!("reading back what was written, {difference}"))
}
