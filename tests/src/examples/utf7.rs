//! Examples of UTF-7.

use std::ops::Range;

use super::{gives, prints, refuses, steps, Group, Listing, Reading, Stepping, Writing};
use crate::second::utf7::Style::{self, Body, Header};

/// The first two are printed out in document 01.
pub fn listings() -> Vec<Listing> {
    vec![
        prints("P2", b"A+ImIDkQ.", "status=0\ncount=4\ncells=00000041 00002262 00000391 0000002E\n"),
        prints("P6", b"+", "status=2\nplace=1\n"),
        prints("P1", b"", "status=0\ncount=0\ncells=\n"),
        prints("P5", b"+-", "status=0\ncount=1\ncells=0000002B\n"),
        prints("a place of two digits", b"aaaaaaaaaa~", "status=3\nplace=10\n"),
    ]
}

pub fn readings() -> Vec<Group<Reading>> {
    vec![
        Group { name: "small-cases", what: "P1 to P8 of document 01", examples: small_readings() },
        Group { name: "edge-cases", what: "texts that are easy to get wrong", examples: edge_readings() },
        Group { name: "rfc-2152", what: "every example of RFC 2152", examples: rfc_readings() },
        Group { name: "not-joined", what: "the counterexample of order 9 of document 02", examples: not_joined() },
    ]
}

pub fn steppings() -> Vec<Group<Stepping>> {
    vec![Group {
        name: "before-faults",
        what: "cells complete before the first fault, and whole texts",
        examples: stepped(),
    }]
}

pub fn writings(style: Style) -> Vec<Group<Writing>> {
    let group = |name, what, examples: Vec<Styled>| Group {
        name,
        what,
        examples: examples.into_iter().filter(|styled| styled.style == style).map(|styled| styled.writing).collect(),
    };
    vec![
        group("small-cases", "P1 to P4 and the saved page of document 01", small_writings()),
        group("edge-cases", "cells that are easy to get wrong", edge_writings()),
        group("rfc-2152", "every example of RFC 2152", rfc_writings()),
    ]
}

/// "record the counterexample "+AKM" and "-" without that"
fn not_joined() -> Vec<Reading> {
    vec![
        gives("the first ends in a run", b"+AKM", &[0xA3]),
        gives("the second", b"-", &[0x2D]),
        gives("joined: the second ends the run", b"+AKM-", &[0xA3]),
    ]
}

/// An example of writing in one style.
struct Styled {
    style: Style,
    writing: Writing,
}

fn writes(name: &'static str, style: Style, cells: &[u32], text: &str) -> Styled {
    Styled { style, writing: gives(name, cells, text.as_bytes()) }
}

/// The small cases of document 01 that read UTF-7.
fn small_readings() -> Vec<Reading> {
    vec![
        gives("P1", b"", &[]),
        gives("P2", b"A+ImIDkQ.", &[0x0041, 0x2262, 0x0391, 0x002E]),
        gives("P5", b"+-", &[0x002B]),
        refuses("P6", b"+", 2, 1),
        refuses("P6, likewise", b"+!", 2, 1),
        refuses("P7", b"+AKN-", 4, 4),
        gives("P7, second clause", b"+AKM-1", &[0x00A3, 0x0031]),
        refuses("P8, as order 3 has it", b"+A-", 4, 2),
        refuses("P8, second clause", b"~", 3, 0),
    ]
}

/// The small cases of document 01 that write UTF-7; the last is what its page saves.
fn small_writings() -> Vec<Styled> {
    vec![
        writes("P1, back", Header, &[], ""),
        writes("P1, back", Body, &[], ""),
        writes("P3", Body, &[0x0041, 0x2262, 0x0391, 0x002E], "A+ImIDkQ-."),
        writes("P4", Header, &[0x65E5, 0x672C, 0x8A9E], "+ZeVnLIqe-"),
        writes("P4", Body, &[0x65E5, 0x672C, 0x8A9E], "+ZeVnLIqe-"),
        writes("body page on P2, saved", Body, &[0x0041, 0x003D, 0x0391, 0x002E], "A=+A5E-."),
    ]
}

/// Readings that follow from the rules, and that a reader can easily get wrong.
fn edge_readings() -> Vec<Reading> {
    vec![
        gives("plus and slash inside a run", b"+/+8-", &[0xFFEF]),
        gives("a plus begins a run of its own letters", b"++AA-", &[0xF800]),
        gives("half a surrogate pair", b"+2AA-", &[0xD800]),
        gives("two bits left over", b"+AAA-", &[0x0000]),
        gives("four bits left over", b"+AAAAAA-", &[0x0000, 0x0000]),
        refuses("six bits left over", b"+AAAAAAAAA-", 4, 10),
        refuses("eight bits left over", b"+AAAA-", 4, 5),
        refuses("ten bits left over", b"+AAAAAAA-", 4, 8),
        refuses("twelve bits left over", b"+AA-", 4, 3),
        refuses("six bits left over at the end of the text", b"+A", 4, 2),
        refuses("eight bits left over before another byte", b"+AAAA.", 4, 5),
        gives("a run that the end closes", b"+AKM", &[0x00A3]),
        gives("a run that another byte closes", b"+AKM!", &[0x00A3, 0x0021]),
        gives("only one minus is absorbed", b"+AKM--", &[0x00A3, 0x002D]),
        gives("a run directly after a run", b"+AKM-+AKM-", &[0x00A3, 0x00A3]),
        gives("the backtick is in set O", b"`", &[0x0060]),
        gives("space, tab, CR and LF", b" \t\r\n", &[0x20, 0x09, 0x0D, 0x0A]),
        refuses("high byte outside a run", b"ab\x80", 1, 2),
        refuses("high byte after a plus", b"+\xFF", 1, 1),
        refuses("high byte that ends a run with bad bits", b"+B\x80", 1, 2),
        refuses("high byte that ends a run with too many bits", b"+A\x80", 1, 2),
        refuses("an earlier fault before a high byte", b"~\x80", 3, 0),
        refuses("a byte of no set after a plus", b"+~", 2, 1),
        refuses("a byte of no set ends a run with bad bits", b"+B~", 4, 2),
        refuses("a byte of no set ends a run with too many bits", b"+A~", 4, 2),
        refuses("a byte of no set ends a run", b"+AKM~", 3, 4),
        refuses("bad bits at the end of the text", b"+B", 4, 2),
        refuses("bad bits before another byte", b"+AKN.", 4, 4),
        refuses("a backslash", b"\\", 3, 0),
        refuses("a control character", b"a\x00", 3, 1),
        refuses("DEL", b"\x7F", 3, 0),
    ]
}

/// Texts stepped through. "Each step hands out the next cell complete before the first fault."
fn stepped() -> Vec<Stepping> {
    vec![
        steps("P1", b"", &[], 0, 0),
        steps("P2", b"A+ImIDkQ.", &[(0x41, 0..1), (0x2262, 2..5), (0x391, 4..8), (0x2E, 8..9)], 0, 4),
        steps("P5", b"+-", &[(0x2B, 0..2)], 0, 1),
        steps("P6", b"+", &[], 2, 1),
        steps("P7, a unit and then bits that are not zero", b"+AKN-", &[(0xA3, 1..4)], 4, 4),
        steps("P7, second clause", b"+AKM-1", &[(0xA3, 1..4), (0x31, 5..6)], 0, 2),
        steps("P8, as order 3 has it", b"+A-", &[], 4, 2),
        steps("a unit and then a letter that nobody needed", b"+AAAA-", &[(0x0000, 1..4)], 4, 5),
        steps("a byte of no set after two cells", b"ab~c", &[(0x61, 0..1), (0x62, 1..2)], 3, 2),
        steps("a bare plus after a cell", b"a+!", &[(0x61, 0..1)], 2, 2),
        steps("a high byte in a run", b"+ImIDkQ\x80", &[(0x2262, 1..4), (0x391, 3..7)], 1, 7),
        steps("a high byte before a unit is full", b"+ImID\x80", &[(0x2262, 1..4)], 1, 5),
        steps("bits that are not zero at the end of the text", b"+ImIB", &[(0x2262, 1..4)], 4, 5),
        steps("three units in eight letters", b"+ZeVnLIqe", &[(0x65E5, 1..4), (0x672C, 3..7), (0x8A9E, 6..9)], 0, 3),
        steps("a fault in a later run", b"+AKM-+AKM-+", &[(0xA3, 1..4), (0xA3, 6..9)], 2, 11),
        steps("plus signs", b"a+-+-b", &[(0x61, 0..1), (0x2B, 1..3), (0x2B, 3..5), (0x62, 5..6)], 0, 4),
        steps("a byte that ends a run", b"+AKM.+AKM", &[(0xA3, 1..4), (0x2E, 4..5), (0xA3, 6..9)], 0, 3),
        steps("three units with shared letters, twice", b"+ZeVnLIqeZeVnLIqe-x", &THREE_UNITS_TWICE, 0, 7),
    ]
}

const THREE_UNITS_TWICE: [(u32, Range<usize>); 7] = [
    (0x65E5, 1..4),
    (0x672C, 3..7),
    (0x8A9E, 6..9),
    (0x65E5, 9..12),
    (0x672C, 11..15),
    (0x8A9E, 14..17),
    (0x78, 18..19),
];

/// Writings that follow from the rules, and that a writer can easily get wrong.
fn edge_writings() -> Vec<Styled> {
    vec![
        writes("backtick", Header, &[0x60], "+AGA-"),
        writes("backtick", Body, &[0x60], "`"),
        writes("a plus parts two runs", Body, &[0xA3, 0x2B, 0xA3], "+AKM-+-+AKM-"),
        writes("a plus parts two runs", Header, &[0x21, 0x2B, 0x21], "+ACE-+-+ACE-"),
        writes("no set has tilde and backslash", Body, &[0x7E, 0x5C], "+AH4AXA-"),
        writes("plus and slash inside a run", Header, &[0xFFEF], "+/+8-"),
        writes("a minus after a run", Header, &[0xA3, 0x2D], "+AKM--"),
        writes("half a surrogate pair", Header, &[0xD800], "+2AA-"),
        writes("no bit of filler", Body, &[0, 0, 0], "+AAAAAAAA-"),
        Styled { style: Body, writing: refuses("cells that are no units", &[0x61, 65_536, 70_000], 10, 1) },
    ]
}

/// An example of RFC 2152: its text, its units, and those units written in header and in body style.
type RfcExample = (&'static str, &'static [u32], &'static str, &'static str);

const RFC_EXAMPLES: [RfcExample; 5] = [
    ("A+ImIDkQ.", &[0x0041, 0x2262, 0x0391, 0x002E], "A+ImIDkQ-.", "A+ImIDkQ-."),
    (
        "Hi Mom -+Jjo--!",
        &[0x0048, 0x0069, 0x0020, 0x004D, 0x006F, 0x006D, 0x0020, 0x002D, 0x263A, 0x002D, 0x0021],
        "Hi Mom -+Jjo--+ACE-",
        "Hi Mom -+Jjo--!",
    ),
    ("+ZeVnLIqe-", &[0x65E5, 0x672C, 0x8A9E], "+ZeVnLIqe-", "+ZeVnLIqe-"),
    (
        "Hi Mom +Jjo-!",
        &[0x0048, 0x0069, 0x0020, 0x004D, 0x006F, 0x006D, 0x0020, 0x263A, 0x0021],
        "Hi Mom +JjoAIQ-",
        "Hi Mom +Jjo-!",
    ),
    (
        "Item 3 is +AKM-1.",
        &[0x0049, 0x0074, 0x0065, 0x006D, 0x0020, 0x0033, 0x0020, 0x0069, 0x0073, 0x0020, 0x00A3, 0x0031, 0x002E],
        "Item 3 is +AKM-1.",
        "Item 3 is +AKM-1.",
    ),
];

/// The two forms of the long example in Appendix A of RFC 2152, as our copy of the RFC has them, with and without
/// characters of set O; and each of them in UTF-8 (made with Python's decoder of UTF-7).
const APPENDIX_A: [(&str, &str); 2] = [
    (include_str!("../../rfc2152/appendix_a_body.txt"), include_str!("../../rfc2152/appendix_a_body.utf8.txt")),
    (include_str!("../../rfc2152/appendix_a_header.txt"), include_str!("../../rfc2152/appendix_a_header.utf8.txt")),
];

/// The characters of set O in Appendix A, and how its second form has them. None stands beside a run.
const SET_O_IN_APPENDIX_A: [(&str, &str); 3] = [("\"", "+ACI-"), (";", "+ADs-"), ("@", "+AEA-")];

/// A form of Appendix A in this style; in its own it stays as it is.
fn restyled(text: &str, style: Style) -> String {
    SET_O_IN_APPENDIX_A.iter().fold(text.to_string(), |text, (direct, run)| match style {
        Header => text.replace(direct, run),
        Body => text.replace(run, direct),
    })
}

/// The forms of Appendix A in both styles, with lines ended by LF and by CR LF: each with its cells and its text.
fn appendix() -> Vec<(Style, Vec<u32>, String)> {
    let mut found = Vec::new();
    for (text, decoded) in APPENDIX_A {
        for style in [Header, Body] {
            for end in ["\n", "\r\n"] {
                let cells = decoded.replace('\n', end).encode_utf16().map(u32::from).collect();
                found.push((style, cells, restyled(text, style).replace('\n', end)));
            }
        }
    }
    found
}

/// Every example of RFC 2152, read.
fn rfc_readings() -> Vec<Reading> {
    let short = RFC_EXAMPLES.iter().map(|(text, cells, _, _)| gives(text, text.as_bytes(), cells));
    let long = appendix().into_iter().map(|(_, cells, text)| gives("Appendix A", text.as_bytes(), &cells));
    short.chain(long).collect()
}

/// Every example of RFC 2152, written.
fn rfc_writings() -> Vec<Styled> {
    let header = RFC_EXAMPLES.iter().map(|(name, cells, text, _)| writes(name, Header, cells, text));
    let body = RFC_EXAMPLES.iter().map(|(name, cells, _, text)| writes(name, Body, cells, text));
    let long = appendix().into_iter().map(|(style, cells, text)| writes("Appendix A", style, &cells, &text));
    header.chain(body).chain(long).collect()
}

#[cfg(test)]
mod tests {
    use super::*;

    #[test]
    fn each_form_of_appendix_a_is_kept_in_its_own_style() {
        let [(body, _), (header, _)] = APPENDIX_A;
        assert_eq!(restyled(body, Body), body);
        assert_eq!(restyled(header, Header), header);
    }
}
