//! The second program: reading, stepping, writing, counting, the page and its ledger as document 01 states them. It was
//! written from that paper, as docs/DECISIONS.md reads it, without a look at the proved code, and by other means: texts
//! are cut into parts by looking ahead, all their faults are gathered and the first is chosen, stepping hands out the
//! cells found before it, bits are lists, and a call on a page makes new lists of all that it leaves. Quotations in
//! comments are sentences of document 01. Mailbox names are in it as order 1 of document 02 states them, where the
//! bytes of a cell begin and end as its order 2 does, the saved mark of a page as its order 5 does, page files as its
//! orders 6 and 10 do, squeezing as its order 8 does, comparing as its order 11 does, both benches as its order 13
//! does, and subject lines as its order 14 does. Beside the readers stands a recogniser of RFC 1554's syntax, for order
//! 7, written from the RFC's page. What a cursor made by hand means is in no paper: `steps_from` takes that from the
//! header and from the definitions of crates/reading (`inText` in specs/Stepping.antt), and of crates/utf7_read,
//! crates/mailbox_read and crates/jp2_read (specs/Cursor.antt).

pub mod bench_ledger;
pub mod benches;
mod bits;
mod call;
pub mod compare;
pub mod desk;
pub mod files;
pub mod grammar;
pub mod jp2;
mod kind;
pub mod ledger;
pub mod mailbox;
pub mod page;
pub mod page_file;
mod reading;
mod run;
pub mod squeeze;
pub mod subject;
mod syntax;
pub mod utf7;

use std::fmt::{self, Display, Formatter};

pub use call::Call;
pub use kind::Kind;
pub use reading::{Complete, Steps};

/// The longest text or list that a function takes. Order 10: "Raise 65,536 to 1,048,576 for texts, lists and histories".
pub const LIMIT: usize = 1_048_576;

/// "The UTF-7 lister and the JP-2 lister read standard input, at most 16,384 bytes."
pub const LISTER_LIMIT: usize = 16_384;

/// A number given back and its place.
#[derive(Clone, Copy, Debug, PartialEq, Eq)]
pub struct Answer {
    pub number: u32,
    pub place: usize,
}

impl Display for Answer {
    fn fmt(&self, f: &mut Formatter) -> fmt::Result {
        write!(f, "{} at {}", self.number, self.place)
    }
}

/// The elements that a reader or writer gives, or its refusal, where there is room enough.
pub type Elements<T> = Result<Vec<T>, Answer>;

/// What a call leaves: its answer, and the whole of the output lent to it.
#[derive(Clone, Debug, PartialEq, Eq)]
pub struct Outcome<T> {
    pub answer: Answer,
    pub output: Vec<T>,
}

/// A refusal with this number and place.
fn refuse<T>(number: u32, place: usize) -> Result<T, Answer> {
    Err(Answer { number, place })
}

/// "16 comes first: any lent text or list (..); output may be longer." Order 10: "16 gives 1,048,576".
fn within_limit(length: usize) -> Result<(), Answer> {
    if length > LIMIT {
        return refuse(16, LIMIT);
    }
    Ok(())
}

/// "Writing: first 10, then 9." "10 | cell not writable in this kind | its index"
fn all_writable(cells: &[u32], is_writable: impl Fn(u32) -> bool) -> Result<(), Answer> {
    match cells.iter().position(|&cell| !is_writable(cell)) {
        Some(index) => refuse(10, index),
        None => Ok(()),
    }
}

/// The outcome of a call that is to give these elements and is lent this output.
pub fn outcome<T: Copy>(elements: &Elements<T>, output: &[T]) -> Outcome<T> {
    let answer = match elements {
        Err(refusal) => *refusal,
        // "9 | too little room | elements needed"
        Ok(elements) if elements.len() > output.len() => Answer { number: 9, place: elements.len() },
        // "0 | accepted | the count of elements"
        Ok(elements) => Answer { number: 0, place: elements.len() },
    };
    // "A refusal changes no page and no buffer." "An accepted read, write or save fills the first *count* elements and
    // no others."
    let mut output = output.to_vec();
    if let (0, Ok(elements)) = (answer.number, elements) {
        output[..elements.len()].copy_from_slice(elements);
    }
    Outcome { answer, output }
}

/// The cells that a lister prints for a text, or its refusal, with this reader of its format.
pub fn listed(read: fn(&[u8]) -> Elements<u32>, text: &[u8]) -> Elements<u32> {
    // "at most 16,384 bytes (longer: status 16, place 16384)"
    if text.len() > LISTER_LIMIT {
        return refuse(16, LISTER_LIMIT);
    }
    read(text)
}

/// "number and place or count in decimal, cells as eight capital hex digits with one space between, every line ended by
/// LF; an empty list prints `cells=` alone."
pub fn print_listing(cells: &Elements<u32>) -> String {
    match cells {
        Err(Answer { number, place }) => format!("status={number}\nplace={place}\n"),
        Ok(cells) => {
            let digits: Vec<String> = cells.iter().map(|cell| format!("{cell:08X}")).collect();
            format!("status=0\ncount={}\ncells={}\n", cells.len(), digits.join(" "))
        }
    }
}

#[cfg(test)]
mod tests {
    use super::*;
    use crate::formats::all as formats;

    #[test]
    fn reads_the_examples() {
        for format in formats() {
            for example in format.readings.iter().flat_map(|group| &group.examples) {
                assert_eq!((format.read)(&example.input), example.expected, "{example}");
            }
        }
    }

    #[test]
    fn writes_the_examples() {
        for writer in formats().into_iter().flat_map(|format| format.writers) {
            for example in writer.writings.iter().flat_map(|group| &group.examples) {
                assert_eq!((writer.write)(&example.input), example.expected, "{example}");
            }
        }
    }

    #[test]
    fn prints_the_listings() {
        for format in formats() {
            for example in format.lister.iter().flat_map(|lister| &lister.listings) {
                assert_eq!(print_listing(&listed(format.read, &example.input)), example.expected, "{example}");
            }
            assert_eq!(print_listing(&listed(format.read, &[0x80; 16_385])), "status=16\nplace=16384\n");
        }
    }

    #[test]
    fn every_writable_cell_reads_back() {
        for format in formats() {
            for cell in (format.source.lone_cells)() {
                for writer in &format.writers {
                    if let Ok(written) = (writer.write)(&[cell]) {
                        assert!(written.len() <= (writer.enough)(1));
                        assert_eq!((format.read)(&written), Ok(vec![cell]));
                    }
                }
            }
        }
    }

    /// The first cell that steps from these numbers hand out, and its bytes.
    fn first_from(steps_from: fn(&[u8], &[u64]) -> Steps, text: &[u8], numbers: &[u64]) -> (u32, usize, usize) {
        let Complete { cell, begin, end } = steps_from(text, numbers).cells[0];
        (cell, begin, end)
    }

    #[test]
    fn a_cursor_made_by_hand_stands_behind_its_bytes() {
        let text = b"AAAAAAAAAA-bcd";
        for waiting in 0..64u64 {
            // So many bits lie in these letters before the cursor, and the cell's others in these behind it.
            let (before, behind) = ((waiting as usize % 16).div_ceil(6), (16 - waiting as usize % 16).div_ceil(6));
            for at in 0..7usize {
                let expected = (0, at.saturating_sub(before), at + behind);
                assert_eq!(first_from(utf7::steps_from, text, &[at as u64, 0, 2, waiting, 0]), expected);
                assert_eq!(first_from(mailbox::steps_from, text, &[at as u64, 0, 4, waiting, 0]), expected);
            }
        }
        for (at, begin) in [(0, 0), (1, 0), (2, 1)] {
            let sign = [&b"++"[..at], b"-"].concat();
            assert_eq!(first_from(utf7::steps_from, &sign, &[at as u64, 0, 1, 0, 0]), (0x2B, begin, at + 1));
            assert_eq!(first_from(mailbox::steps_from, &sign, &[at as u64, 0, 3, 0, 0]), (0x26, begin, at + 1));
            let pair = [at as u64, 0, 87, 0, 2, 0x24, 0];
            assert_eq!(first_from(jp2::steps_from, b"!!!!", &pair), (0x0057_2421, begin, at + 1));
        }
        for (at, begin) in [(0, 0), (1, 0), (2, 0), (3, 1)] {
            let shifted = [at as u64, 0, 6, 100, 3, 0, 0];
            assert_eq!(first_from(jp2::steps_from, b"AAAA", &shifted), (0x0064_0041, begin, at + 1));
        }
        // A byte that ends a run is its own, and what ends an escape is the escape's.
        assert_eq!(first_from(utf7::steps_from, b"a.b", &[1, 0, 2, 4, 0]), (0x2E, 1, 2));
        assert_eq!(first_from(jp2::steps_from, b"Ba", &[0, 0, 87, 0, 5, 0x28, 0]), (0x0006_0061, 1, 2));
        assert_eq!(first_from(jp2::steps_from, b"NA", &[0, 0, 87, 126, 4, 0, 0]), (0x007E_0041, 0, 2));
    }

    #[test]
    fn a_cursor_made_by_hand_is_judged_like_the_text_before_it() {
        let last = |steps: Steps| (steps.cells.len(), steps.answer.number, steps.answer.place);
        assert_eq!(last(utf7::steps_from(b"ab", &[9, 7, 1, 0, 0])), (0, 2, 2));
        assert_eq!(last(utf7::steps_from(b"ab-", &[2, 7, 2, 2, 1])), (0, 4, 2));
        assert_eq!(last(utf7::steps_from(b"ab-c", &[2, 7, 2, 2, 4])), (1, 0, 3));
        assert_eq!(last(mailbox::steps_from(b"&AKM-", &[0, 0, 1, 0, 0])), (0, 17, 1));
        assert_eq!(last(mailbox::steps_from(b"AKM-", &[0, 0, 2, 0, 0])), (1, 0, 1));
        assert_eq!(last(jp2::steps_from(b"\n\x1BNA", &[0, 0, 6, 100, 1, 0, 0])), (1, 6, 2));
        assert_eq!(last(jp2::steps_from(b"x", &[0, 0, 6, 100, 6, 0x28, 0x42])), (0, 5, 0));
        assert_eq!(last(jp2::steps_from(b"", &[0, 0, 6, 100, 5, 0x4E, 0])), (0, 7, 0));
    }

    #[test]
    fn a_cursor_made_by_hand_past_the_end_stands_at_the_end() {
        let answer = |steps: Steps| (steps.cells.len(), steps.answer.number, steps.answer.place);
        for (text, at, handed, count) in
            [(&b""[..], 7, 1, 0), (b"ab", 9, 9, 2), (b"ab", 9, 1, 1), (b"ab", u64::MAX, 3, 2)]
        {
            assert_eq!(answer(utf7::steps_from(text, &[at, handed, 0, 0, 0])), (0, 0, count));
            assert_eq!(answer(mailbox::steps_from(text, &[at, handed, 0, 0, 0])), (0, 0, count));
            assert_eq!(answer(jp2::steps_from(text, &[at, handed, 6, 0, 0, 0, 0])), (0, 0, count));
        }
    }

    #[test]
    fn refuses_over_the_limit() {
        for format in formats() {
            assert_eq!((format.read)(&vec![0x80; 1_048_577]), refuse(16, 1_048_576));
            assert_eq!((format.read)(&vec![b'a'; 1_048_576]).map(|cells| cells.len()), Ok(1_048_576));
            for writer in format.writers {
                assert_eq!((writer.write)(&vec![u32::MAX; 1_048_577]), refuse(16, 1_048_576));
                assert_eq!((writer.write)(&vec![u32::MAX; 1_048_576]), refuse(10, 0));
            }
        }
    }

    #[test]
    fn a_refusal_leaves_the_output() {
        let (short, exact, long) = ([7, 7], [7, 7, 7, 7], [7, 7, 7, 7, 7, 7]);
        let cells = utf7::read(b"A+ImIDkQ.");
        let call = |output: &[u32]| outcome(&cells, output);
        assert_eq!(call(&short), Outcome { answer: Answer { number: 9, place: 4 }, output: short.to_vec() });
        let accepted = Answer { number: 0, place: 4 };
        assert_eq!(call(&exact), Outcome { answer: accepted, output: vec![0x41, 0x2262, 0x391, 0x2E] });
        assert_eq!(call(&long), Outcome { answer: accepted, output: vec![0x41, 0x2262, 0x391, 0x2E, 7, 7] });
        assert_eq!(
            outcome(&utf7::read(b"ab~"), &long),
            Outcome { answer: Answer { number: 3, place: 2 }, output: long.to_vec() }
        );
    }
}
