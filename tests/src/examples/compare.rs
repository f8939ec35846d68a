//! Examples of comparing, worked out by hand.

use crate::second::compare::Comparison;
use crate::second::{Answer, LIMIT};

/// Two texts, and what comparing them gives.
pub struct Example {
    pub first: Vec<u8>,
    pub second: Vec<u8>,
    pub expected: Comparison,
}

fn same(count: usize) -> Comparison {
    Comparison::Same { count }
}

fn part(index: usize, first: usize, second: usize) -> Comparison {
    Comparison::Part { index, first, second }
}

fn refused(text: u32, number: u32, place: usize) -> Comparison {
    Comparison::Refused { text, answer: Answer { number, place } }
}

/// The examples of a format.
pub fn examples(format: &str) -> Vec<Example> {
    let long = vec![b'a'; LIMIT + 1];
    let list: &[(&[u8], &[u8], Comparison)] = match format {
        "utf7" => &[
            (b"", b"", same(0)),
            // Other runs, a `-` left out, header and body.
            (b"A+ImIDkQ.", b"A+ImI-+A5E-.", same(4)),
            (b"a+AKM", b"a+AKM-", same(2)),
            (b"Hi+ACE-", b"Hi!", same(3)),
            // In a run a cell begins at the letter with its first bit.
            (b"A+ImIDkQ.", b"A+ImI-+A5A-.", part(2, 4, 7)),
            // A text that has ended.
            (b"a+AGI-", b"abc", part(2, 6, 2)),
            (b"abc", b"a+AGI-", part(2, 2, 6)),
            // A fault behind the parting, and the first's before the second's.
            (b"ax~", b"by", refused(1, 3, 2)),
            (b"ax", b"by~", refused(2, 3, 2)),
            (b"abc~", b"~", refused(1, 3, 3)),
            (b"a", b"a~", refused(2, 3, 1)),
            (&long, b"~", refused(1, 16, LIMIT)),
            (b"b", &long, refused(2, 16, LIMIT)),
            (b"~", &long, refused(1, 3, 0)),
        ],
        "jp2" => &[
            (b"a", b"\x1b(Ba", same(1)),
            (b"\x1b$B$\"$$\x1b(B", b"\x1b$B$\"\x1b(B\x1b$B$$\x1b(B", same(2)),
            (b"\x1b(Ba", b"b", part(0, 3, 0)),
            (b"", b"\x1b(Ba", part(0, 0, 3)),
            // One code in two sets is not one cell.
            (b"\x1b$B$\"\x1b(B", b"\x1b$@$\"\x1b(B", part(0, 3, 3)),
            (b"a", b"b\x1b", refused(2, 7, 2)),
            (b"\x1b$B$\"", b"\x80", refused(1, 8, 5)),
        ],
        "mailbox" => &[
            (b"R&-D", b"R&-D", same(3)),
            (b"a&-b", b"a&-&AKM-", part(2, 3, 4)),
            (b"ab", b"b&A-", refused(2, 17, 3)),
            (b"&AKM", b"&", refused(1, 7, 4)),
        ],
        _ => &[],
    };
    let example = |&(first, second, expected): &(&[u8], &[u8], Comparison)| Example {
        first: first.to_vec(),
        second: second.to_vec(),
        expected,
    };
    list.iter().map(example).collect()
}
