//! Examples of JP-2.

use std::ops::Range;

use super::{gives, prints, refuses, steps, Example, Group, Listing, Reading, Stepping, Writing};
use crate::second::{Answer, Outcome};

/// Cells and what their tally gives.
pub type Tally = Example<u32, Outcome<u32>>;

pub fn listings() -> Vec<Listing> {
    vec![
        prints("P1", b"", "status=0\ncount=0\ncells=\n"),
        prints("P9", b"\x1B$B$\"\x1B(B", "status=0\ncount=1\ncells=00572422\n"),
        prints("P10", b"\x1B$B$\"", "status=8\nplace=5\n"),
        prints("P12, second clause", b"\x1B.A\n\x1BNA", "status=0\ncount=2\ncells=0006000A 00640041\n"),
    ]
}

pub fn readings() -> Vec<Group<Reading>> {
    let spelled = SPELLED.iter().map(|(name, text, cells)| gives(name, text, cells));
    vec![
        Group { name: "small-cases", what: "P1, P9 to P12 and 1B 24 42 20 of document 01", examples: small_readings() },
        Group { name: "escapes", what: "escapes that are easy to get wrong", examples: escape_readings() },
        Group { name: "shifts", what: "G2 and line ends that are easy to get wrong", examples: shift_readings() },
        Group { name: "codes", what: "single bytes and pairs that are easy to get wrong", examples: code_readings() },
        Group { name: "spelled", what: "texts that are written so", examples: spelled.collect() },
        Group { name: "rfc-1554", what: "what RFC 1554 says of escapes and bytes", examples: rfc_readings() },
        Group { name: "one-way", what: "order 9 of document 02 holds one way only", examples: one_way() },
    ]
}

/// A text that is accepted behind another, and not by itself.
fn one_way() -> Vec<Reading> {
    vec![
        gives("the first leaves a set in G2", b"\x1B.A", &[]),
        refuses("the second", b"\x1BNA", 6, 1),
        gives("joined", b"\x1B.A\x1BNA", &[0x0064_0041]),
    ]
}

pub fn steppings() -> Vec<Group<Stepping>> {
    vec![Group {
        name: "before-faults",
        what: "cells complete before the first fault, and whole texts",
        examples: stepped(),
    }]
}

pub fn writings() -> Vec<Group<Writing>> {
    let spelled = SPELLED.iter().map(|(name, text, cells)| gives(name, cells, text));
    vec![
        Group { name: "small-cases", what: "P1, P9 and 00952121 of document 01", examples: small_writings() },
        Group { name: "spelled", what: "cells that are easy to get wrong", examples: spelled.collect() },
        Group { name: "unwritable", what: "cells that are not writable", examples: unwritable() },
    ]
}

pub fn tallies() -> Vec<Group<Tally>> {
    let counts = vec![
        counted("P1", &[], [0; 9]),
        counted("P9", &[0x0057_2422], [0, 0, 0, 0, 1, 0, 0, 0, 0]),
        counted("P12, second clause", &[0x0006_000A, 0x0064_0041], [1, 0, 0, 0, 0, 1, 0, 0, 0]),
        counted("KSC5601", &[0x0095_2121; 3], [0, 0, 0, 0, 0, 0, 0, 3, 0]),
        counted("every set", &EVERY_SET, [1; 9]),
    ];
    let refused = unwritable().into_iter().filter_map(|writing| {
        let answer = writing.expected.err()?;
        Some(Example { name: writing.name, input: writing.input, expected: Outcome { answer, output: vec![0; 9] } })
    });
    vec![
        Group { name: "small-cases", what: "cells of document 01's small cases", examples: counts },
        Group { name: "unwritable", what: "cells that are not writable", examples: refused.collect() },
    ]
}

fn counted(name: &'static str, cells: &[u32], counts: [u32; 9]) -> Tally {
    let answer = Answer { number: 0, place: cells.len() };
    Example { name, input: cells.to_vec(), expected: Outcome { answer, output: counts.to_vec() } }
}

/// A cell of each set, in the order of document 01's table.
const EVERY_SET: [u32; 9] = [
    0x0006_0061,
    0x000E_005C,
    0x002A_3021,
    0x0057_3022,
    0x003A_3023,
    0x0095_3024,
    0x009F_3025,
    0x0064_0041,
    0x007E_0042,
];

/// The small cases of document 01 that read JP-2.
fn small_readings() -> Vec<Reading> {
    vec![
        gives("P1", b"", &[]),
        gives("P9", b"\x1B$B$\"\x1B(B", &[0x0057_2422]),
        refuses("P10, first five bytes of P9", b"\x1B$B$\"", 8, 5),
        refuses("P10, first four bytes of P9", b"\x1B$B$", 7, 4),
        gives("P11", b"\x1B.A\x1BNA", &[0x0064_0041]),
        refuses("P12", b"\x1B.A\r\n\x1BNA", 6, 6),
        gives("P12, second clause", b"\x1B.A\n\x1BNA", &[0x0006_000A, 0x0064_0041]),
        refuses("a space with JIS in G0", b"\x1B$B\x20", 3, 3),
    ]
}

/// The small cases of document 01 that write JP-2.
fn small_writings() -> Vec<Writing> {
    vec![
        gives("P1, back", &[], b""),
        gives("P9, back", &[0x0057_2422], b"\x1B$B$\"\x1B(B"),
        gives("KSC5601", &[0x0095_2121], b"\x1B$(C!!\x1B(B"),
    ]
}

/// Texts stepped through. "Each step hands out the next cell complete before the first fault."
fn stepped() -> Vec<Stepping> {
    vec![
        steps("P1", b"", &[], 0, 0),
        steps("P9", b"\x1B$B$\"\x1B(B", &[(0x0057_2422, 3..5)], 0, 1),
        steps("P10, first five bytes of P9", b"\x1B$B$\"", &[(0x0057_2422, 3..5)], 8, 5),
        steps("P10, first four bytes of P9", b"\x1B$B$", &[], 7, 4),
        steps("P11", b"\x1B.A\x1BNA", &[(0x0064_0041, 3..6)], 0, 1),
        steps("P12", b"\x1B.A\r\n\x1BNA", &[(0x0006_000D, 3..4), (0x0006_000A, 4..5)], 6, 6),
        steps("P12, second clause", b"\x1B.A\n\x1BNA", &[(0x0006_000A, 3..4), (0x0064_0041, 4..7)], 0, 2),
        steps("an escape of no row after two cells", b"ab\x1B$(B!!", &[(0x0006_0061, 0..1), (0x0006_0062, 1..2)], 5, 5),
        steps("a high byte second in a later pair", b"\x1B$A!!!\x80", &[(0x003A_2121, 3..5)], 1, 6),
        steps("ESC second in a later pair", b"\x1B$@!!!\x1B(B", &[(0x002A_2121, 3..5)], 3, 6),
        steps("the text ends in a later pair", b"\x1B$(C!!!", &[(0x0095_2121, 4..6)], 7, 7),
        steps("ESC N and a control character", b"a\x1B.F\x1BN\x1F", &[(0x0006_0061, 0..1)], 3, 6),
        steps("ESC N between pairs", b"\x1B$(D!!\x1B.F\x1BNa!~\x1B(B", &SHIFTED_BETWEEN_PAIRS, 0, 3),
        steps("designations before a byte", b"\x1B$B\x1B.A\x1B(J\x1B(Ba", &[(0x0006_0061, 12..13)], 0, 1),
        steps("Roman at the end", b"\x1B(Ja ", &[(0x000E_0061, 3..4), (0x0006_0020, 4..5)], 8, 5),
        steps("SO after cells", b"\r\r\n\x0E", &[(0x0006_000D, 0..1), (0x0006_000D, 1..2), (0x0006_000A, 2..3)], 3, 3),
    ]
}

const SHIFTED_BETWEEN_PAIRS: [(u32, Range<usize>); 3] =
    [(0x009F_2121, 4..6), (0x007E_0061, 9..12), (0x009F_217E, 12..14)];

fn escape_readings() -> Vec<Reading> {
    vec![
        refuses("JIS as a four-byte escape", b"\x1B$(B!!\x1B(B", 5, 3),
        refuses("old JIS as a four-byte escape", b"\x1B$(@!!\x1B(B", 5, 3),
        refuses("GB2312 as a four-byte escape", b"\x1B$(A!!\x1B(B", 5, 3),
        refuses("KSC5601 as a three-byte escape", b"\x1B$C!!\x1B(B", 5, 2),
        refuses("JIS X 0212 as a three-byte escape", b"\x1B$D!!\x1B(B", 5, 2),
        refuses("a G2 set to G0", b"\x1B(A", 5, 2),
        refuses("a G0 set to G2", b"\x1B.B", 5, 2),
        refuses("a Roman set of no row", b"\x1B(I", 5, 2),
        refuses("ESC ESC", b"\x1B\x1B(B", 5, 1),
        refuses("ESC inside an escape", b"\x1B$\x1B(B", 5, 2),
        refuses("ESC as the last byte of a longer escape", b"\x1B$(\x1B(B", 5, 3),
        refuses("an announcer", b"\x1B A", 5, 1),
        refuses("single shift three", b"\x1BOA", 5, 1),
        refuses("a small n", b"\x1B.A\x1BnA", 5, 4),
        refuses("ESC at the end", b"a\x1B", 7, 2),
        refuses("ESC $ at the end", b"\x1B$", 7, 2),
        refuses("ESC $ ( at the end", b"\x1B$(", 7, 3),
        refuses("ESC ( at the end", b"\x1B(", 7, 2),
        refuses("ESC . at the end", b"\x1B.", 7, 2),
        refuses("an escape at the end, with Roman in G0", b"\x1B(J\x1B(", 7, 5),
        refuses("high byte after ESC", b"\x1B\x80", 1, 1),
        refuses("high byte inside an escape", b"\x1B$\xC2", 1, 2),
        refuses("high byte as the last byte of an escape", b"\x1B$(\xC3", 1, 3),
        refuses("an earlier fault before a high byte", b"\x1B(C\x80", 5, 2),
        gives("needless designations", b"\x1B(B\x1B(B\x1B(Ba\x1B.A\x1B.F\x1B.F\x1B(B", &[0x0006_0061]),
        gives("designations with nothing between them", b"\x1B$@\x1B$B\x1B$A\x1B$(C\x1B$(D\x1B(J\x1B(B", &[]),
    ]
}

fn shift_readings() -> Vec<Reading> {
    vec![
        refuses("nothing in G2", b"\x1BNA", 6, 1),
        refuses("nothing in G2, and then the end", b"\x1BN", 6, 1),
        refuses("nothing in G2, and then a high byte", b"\x1BN\xC1", 6, 1),
        refuses("ESC N at the end", b"\x1B.A\x1BN", 7, 5),
        refuses("ESC N at the end, with JIS in G0", b"\x1B$B\x1B.A\x1BN", 7, 8),
        refuses("ESC N and a high byte", b"\x1B.A\x1BN\xC1", 1, 5),
        refuses("ESC N and a control character", b"\x1B.A\x1BN\x1F", 3, 5),
        refuses("ESC N and CR", b"\x1B.A\x1BN\r\n", 3, 5),
        refuses("ESC N and ESC", b"\x1B.A\x1BN\x1BNA", 3, 5),
        gives("ESC N, space and DEL", b"\x1B.A\x1BN \x1BN\x7F", &[0x0064_0020, 0x0064_007F]),
        gives("the byte after ESC N is no pair's", b"\x1B$B\x1B.F\x1BNa!!\x1B(B", &[0x007E_0061, 0x0057_2121]),
        gives("a G2 set between two others", b"\x1B$A\x1B.F0!\x1B(B\x1BNa", &[0x003A_3021, 0x007E_0061]),
        gives("the last G2 set", b"\x1B.A\x1B.F\x1BNA", &[0x007E_0041]),
        gives("a lone CR", b"\x1B.A\r\x1BNA", &[0x0006_000D, 0x0064_0041]),
        gives("LF CR", b"\x1B.A\n\r\x1BNA", &[0x0006_000A, 0x0006_000D, 0x0064_0041]),
        gives("CR, a letter, LF", b"\x1B.A\ra\n\x1BNA", &[0x0006_000D, 0x0006_0061, 0x0006_000A, 0x0064_0041]),
        gives("CR, an escape, LF", b"\x1B.A\r\x1B(B\n\x1BNA", &[0x0006_000D, 0x0006_000A, 0x0064_0041]),
        gives(
            "CR, a shifted byte, LF",
            b"\x1B.A\r\x1BNA\n\x1BNA",
            &[0x0006_000D, 0x0064_0041, 0x0006_000A, 0x0064_0041],
        ),
        gives("CR, a G2 designation, LF", b"\r\x1B.A\n\x1BNA", &[0x0006_000D, 0x0006_000A, 0x0064_0041]),
        gives("designated after CR LF", b"\r\n\x1B.A\x1BNA", &[0x0006_000D, 0x0006_000A, 0x0064_0041]),
        refuses("CR CR LF", b"\x1B.A\r\r\n\x1BNA", 6, 7),
        refuses("CR LF with Roman in G0", b"\x1B(J\x1B.F\r\na\x1BNA", 6, 10),
        refuses("CR LF, and another G0 set", b"\x1B.A\r\n\x1B$B\x1BNA", 6, 9),
    ]
}

fn code_readings() -> Vec<Reading> {
    vec![
        refuses("SO", b"a\x0E", 3, 1),
        refuses("SI", b"\x0F", 3, 0),
        refuses("SO with Roman in G0", b"\x1B(J\x0E", 3, 3),
        refuses("SI with JIS in G0", b"\x1B$B\x0F!", 3, 3),
        refuses("an earlier fault before a high byte", b"\x0E\x80", 3, 0),
        refuses("high byte", b"ab\x80", 1, 2),
        refuses("high byte first in a pair", b"\x1B$B\xA4\xA2", 1, 3),
        refuses("high byte second in a pair", b"\x1B$B$\xA2", 1, 4),
        refuses("ESC second in a pair", b"\x1B$B$\x1B(B", 3, 4),
        refuses("ESC N second in a pair", b"\x1B$B\x1B.A$\x1BNA", 3, 7),
        refuses("an ESC that no escape begins with, second in a pair", b"\x1B$B$\x1B\x80", 3, 4),
        refuses("a space second in a pair", b"\x1B$@! ", 3, 4),
        refuses("DEL first in a pair", b"\x1B$(C\x7F!", 3, 4),
        refuses("DEL second in a pair", b"\x1B$(D!\x7F", 3, 5),
        refuses("CR LF with GB2312 in G0", b"\x1B$A!!\r\n", 3, 5),
        refuses("the text ends in a later pair", b"\x1B$A!!!", 7, 6),
        gives("the ends of the range of pairs", b"\x1B$A!~~!\x1B(B", &[0x003A_217E, 0x003A_7E21]),
        gives("no pair with JIS in G0", b"\x1B$B\x1B(B", &[]),
        gives("NUL and DEL", b"\x00\x7F", &[0x0006_0000, 0x0006_007F]),
        gives(
            "only bytes of 33 to 126 are Roman",
            b"\x1B(J!~\x00 \x7F\r\x1B(B",
            &[0x000E_0021, 0x000E_007E, 0x0006_0000, 0x0006_0020, 0x0006_007F, 0x0006_000D],
        ),
        gives("Roman over a line end", b"\x1B(J\r\n~\x1B(B", &[0x0006_000D, 0x0006_000A, 0x000E_007E]),
        refuses("Roman at the end", b"\x1B(Ja", 8, 4),
        refuses("only a designation", b"\x1B$(D", 8, 4),
        refuses("ASCII, and then JIS", b"\x1B(Ba\x1B$@", 8, 7),
    ]
}

/// An example that holds both ways: its text and its cells.
type Spelled = (&'static str, &'static [u8], &'static [u32]);

/// Texts that are as the writer spells them. Those of several languages were made with Python (the texts with its
/// encoder of ISO-2022-JP-2, the codes with those of EUC).
const SPELLED: [Spelled; 14] = [
    (
        "all of ASCII's kinds",
        b"a~ \t\r\n\x00\x7F",
        &[0x0006_0061, 0x0006_007E, 0x0006_0020, 0x0006_0009, 0x0006_000D, 0x0006_000A, 0x0006_0000, 0x0006_007F],
    ),
    ("every set", b"a\x1B(J\\\x1B$@0!\x1B$B0\"\x1B$A0#\x1B$(C0$\x1B$(D0%\x1B.A\x1BNA\x1B.F\x1BNB\x1B(B", &EVERY_SET),
    ("a space between Roman letters", b"\x1B(Ja\x1B(B \x1B(Jb\x1B(B", &[0x000E_0061, 0x0006_0020, 0x000E_0062]),
    ("a control character and DEL after Roman", b"\x1B(Ja\x1B(B\t\x7F", &[0x000E_0061, 0x0006_0009, 0x0006_007F]),
    ("two cells of one pair set", b"\x1B$B!!~~\x1B(B", &[0x0057_2121, 0x0057_7E7E]),
    ("a line of pairs", b"\x1B$B!!\x1B(B\r\n\x1B$B!!\x1B(B", &[0x0057_2121, 0x0006_000D, 0x0006_000A, 0x0057_2121]),
    ("G2 alone", b"\x1B.A\x1BN \x1BN\x7F", &[0x0064_0020, 0x0064_007F]),
    ("both G2 sets by turns", b"\x1B.A\x1BNA\x1B.F\x1BNA\x1B.A\x1BNA", &[0x0064_0041, 0x007E_0041, 0x0064_0041]),
    (
        "G0 stays",
        b"\x1B$B!!\x1B.A\x1BNA!!\x1BNA\x1B(Ba",
        &[0x0057_2121, 0x0064_0041, 0x0057_2121, 0x0064_0041, 0x0006_0061],
    ),
    (
        "G2 before and after CR LF",
        b"\x1B.A\x1BNA\r\n\x1B.A\x1BNA",
        &[0x0064_0041, 0x0006_000D, 0x0006_000A, 0x0064_0041],
    ),
    (
        "G2 before and after LF",
        b"\x1B.A\x1BNA\n\x1BNA\r\x1BNA",
        &[0x0064_0041, 0x0006_000A, 0x0064_0041, 0x0006_000D, 0x0064_0041],
    ),
    (
        "G2 between CR and LF",
        b"\x1B.F\x1BNA\r\x1BNB\n\x1BNC",
        &[0x007E_0041, 0x0006_000D, 0x007E_0042, 0x0006_000A, 0x007E_0043],
    ),
    (
        "Japanese and Korean",
        b"\x1B$BF|K\\8l\x1B(B, \x1B$(CGQ19>n\x1B(B\r\n",
        &[
            0x0057_467C,
            0x0057_4B5C,
            0x0057_386C,
            0x0006_002C,
            0x0006_0020,
            0x0095_4751,
            0x0095_3139,
            0x0095_3E6E,
            0x0006_000D,
            0x0006_000A,
        ],
    ),
    (
        "a price in yen, and JIS X 0212",
        b"\x1B(J\\\x1B(B5\r\n\x1B$(D0!l?\x1B$B0!\x1B(B",
        &[0x000E_005C, 0x0006_0035, 0x0006_000D, 0x0006_000A, 0x009F_3021, 0x009F_6C3F, 0x0057_3021],
    ),
];

/// What the text of RFC 1554 says of an escape or a byte.
fn rfc_readings() -> Vec<Reading> {
    vec![
        gives("Korean KSC characters, which are encoded in two bytes each", b"\x1B$(C0!\x1B(B", &[0x0095_3021]),
        gives("A with acute", b"\x1B.A\x1BNA", &[0x0064_0041]),
        gives("y with diaeresis, 7/15", b"\x1B.A\x1BN\x7F", &[0x0064_007F]),
        gives("not necessarily before ESC N ' '", b"\x1B$B\x1B.A\x1BN \x1B(B", &[0x0064_0020]),
        refuses("a switch before a space", b"\x1B$B!! \x1B(B", 3, 5),
        refuses("a switch before CRLF", b"\x1B$B!!\r\n\x1B(B", 3, 5),
        gives("the next line starts in the set switched to", b"\x1B(J\n~\x1B(B", &[0x0006_000A, 0x000E_007E]),
        refuses("at the beginning of a line G2 is cleared", b"\x1B.A\x1BNA\r\n\x1BNA", 6, 9),
        refuses("the text must end in ASCII", b"\x1B$B!!\x1B(J", 8, 8),
    ]
}

fn unwritable() -> Vec<Writing> {
    vec![
        refuses("SO", &[0x0006_000E], 10, 0),
        refuses("SI", &[0x0006_0061, 0x0006_000F], 10, 1),
        refuses("ESC", &[0x0006_001B], 10, 0),
        refuses("ASCII over 127", &[0x0006_0080], 10, 0),
        refuses("a space in Roman", &[0x000E_0020], 10, 0),
        refuses("DEL in Roman", &[0x000E_007F], 10, 0),
        refuses("CR in Roman", &[0x000E_000D], 10, 0),
        refuses("a pair of one byte", &[0x0057_0021], 10, 0),
        refuses("a pair with a space", &[0x0057_2120], 10, 0),
        refuses("a pair with DEL", &[0x002A_7F21], 10, 0),
        refuses("a pair with high bytes", &[0x009F_A1A1], 10, 0),
        refuses("a control character in G2", &[0x0064_001F], 10, 0),
        refuses("a high byte in G2", &[0x007E_00C1], 10, 0),
        refuses("two bytes in G2", &[0x0064_4141], 10, 0),
        refuses("a unit of UTF-7", &[0x0000_0041], 10, 0),
        refuses("no set", &[0x0005_0041], 10, 0),
        refuses("a number over 255", &[0x0106_0041], 10, 0),
        refuses("the first of two", &[0x0057_2121, 0x0064_0041, 0x000E_0020, 0xFFFF_FFFF], 10, 2),
    ]
}
