//! Order 12 of document 02: the plain second reader "is proved to give the same answer, cells and place as the main
//! reader on each of them". Here it stands beside the main reader and the second program.

use super::call::Call;
use super::reading::check_on_texts;
use super::subject::Subject;
use crate::formats;
use crate::library;
use crate::report::{Report, Statuses};
use crate::second::jp2::{self, PLAIN_LIMIT};
use crate::second::Elements;

pub fn run(report: &mut Report, seed: u64) {
    let format = formats::jp2();
    // No byte gives more than one cell.
    let subject = ThreeReaders {
        plain: Call {
            name: "jp2-plain".to_string(),
            function: &library::JP2_PLAIN_READ,
            second: jp2::read_plain,
            enough: |bytes| bytes,
        },
        main: Call {
            name: "jp2-read".to_string(),
            function: &library::JP2.read,
            second: format.read,
            enough: |bytes| bytes,
        },
    };
    subject.check_groups(report, &format.readings);
    check_on_texts(report, &subject, &format, seed);
    let source = format.source;
    let near = [PLAIN_LIMIT - 1, PLAIN_LIMIT, PLAIN_LIMIT + 1].into_iter();
    let near = near.flat_map(|length| source.texts_of_length(length));
    subject.check(report, "bound", "texts of 512 bytes and one off it, with a fault of each kind", near);
    let about = source.texts(seed, "texts of about 512 bytes", 20_000, |rng| rng.between(450, 520));
    subject.check(report, "about-bound", "seeded texts of about 512 bytes, whole and damaged", about);
    let turns = "texts in which stretches hand over as often as they can, up to the bound and past it";
    subject.check(report, "hand-overs", turns, hand_overs());
    report.expect_statuses(library::JP2_PLAIN_READ.name, &format.statuses(&[0, 9, 16]));
}

/// A designation of a set of pairs and one of a set of single bytes, over and over, with a byte or pair in the stretches
/// or none: of every length up to the bound and a little past it.
fn hand_overs() -> impl Iterator<Item = Vec<u8>> {
    let rounds: [&[u8]; 4] =
        [b"\x1B$B\x1B(B", b"\x1B$(C!!\x1B(Ja", b"\x1B$@\x1B.A\x1BNA\x1B(B", b"a\x1B$A!!\x1B$(D!!\x1B(B"];
    rounds.into_iter().flat_map(|round| {
        (0..PLAIN_LIMIT + 9).map(|length| round.iter().copied().cycle().take(length).collect::<Vec<u8>>())
    })
}

/// The plain reader, beside the main reader where it takes the text, and the second program.
struct ThreeReaders<'a> {
    plain: Call<'a, u8, u32>,
    main: Call<'a, u8, u32>,
}

impl Subject for ThreeReaders<'_> {
    type Element = u8;
    type Expected = Elements<u32>;

    fn name(&self) -> &str {
        self.plain.name()
    }

    fn second(&self, text: &[u8]) -> Elements<u32> {
        self.plain.second(text)
    }

    /// Compares what both leave in all of the lent memory, with output of several lengths.
    fn compare(&self, text: &[u8], cells: &Elements<u32>, statuses: &mut Statuses) -> Result<(), String> {
        self.plain.compare(text, cells, statuses)?;
        if text.len() > PLAIN_LIMIT {
            return Ok(());
        }
        self.main.compare(text, cells, statuses).map_err(|difference| format!("the main reader: {difference}"))
    }
}
