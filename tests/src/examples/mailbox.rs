//! Examples of mailbox names.

use super::{gives, prints, refuses, steps, Group, Listing, Reading, Stepping, Writing};

pub fn listings() -> Vec<Listing> {
    vec![
        prints("a name of order 1", b"&ZeVnLIqe-", "status=0\ncount=3\ncells=000065E5 0000672C 00008A9E\n"),
        prints("the ampersand", b"&-", "status=0\ncount=1\ncells=00000026\n"),
        prints("a printable unit in a run", b"&ACY-", "status=17\nplace=3\n"),
        prints("a run directly after a run", b"&AKM-&AKM-", "status=17\nplace=6\n"),
        prints("no byte", b"", "status=0\ncount=0\ncells=\n"),
        prints("no run of UTF-7", b"+AKM", "status=0\ncount=4\ncells=0000002B 00000041 0000004B 0000004D\n"),
        prints("a place of two digits", b"aaaaaaaaaa\t", "status=3\nplace=10\n"),
    ]
}

pub fn readings() -> Vec<Group<Reading>> {
    vec![
        Group { name: "small-cases", what: "names that order 1 decides", examples: small_readings() },
        Group { name: "edge-cases", what: "names that are easy to get wrong", examples: edge_readings() },
        Group { name: "rfc-3501", what: "every example of RFC 3501, section 5.1.3", examples: rfc_readings() },
        Group { name: "not-utf7", what: "texts that UTF-7 reads otherwise", examples: not_utf7() },
        Group {
            name: "not-joined",
            what: "a name that is accepted, and not when joined to itself",
            examples: not_joined(),
        },
    ]
}

/// Why order 9 of document 02 does not speak of names: a run would stand directly after a run.
fn not_joined() -> Vec<Reading> {
    vec![gives("a name", b"&AKM-", &[0xA3]), refuses("joined to itself", b"&AKM-&AKM-", 17, 6)]
}

pub fn steppings() -> Vec<Group<Stepping>> {
    vec![Group {
        name: "before-faults",
        what: "cells complete before the first fault, and whole names",
        examples: stepped(),
    }]
}

pub fn writings() -> Vec<Group<Writing>> {
    vec![
        Group { name: "edge-cases", what: "cells that are easy to get wrong", examples: edge_writings() },
        Group { name: "rfc-3501", what: "every name that RFC 3501 calls correct", examples: rfc_writings() },
    ]
}

/// Names for which the order, as docs/DECISIONS.md reads it, says what is given.
fn small_readings() -> Vec<Reading> {
    vec![
        gives("no byte", b"", &[]),
        gives("the name of order 1", b"&ZeVnLIqe-", &[0x65E5, 0x672C, 0x8A9E]),
        gives("the ampersand", b"&-", &[0x26]),
        gives("the ampersand after a run", b"&AKM-&-", &[0xA3, 0x26]),
        refuses("the ampersand in a run", b"&ACY-", 17, 3),
        refuses("a bare sign at the end", b"&", 2, 1),
        refuses("a bare sign", b"&!", 2, 1),
        refuses("a run directly after a run", b"&AKM-&AKM-", 17, 6),
        refuses("an open run with bits that are not zero", b"&AKN", 7, 4),
        refuses("another byte after bits that are not zero", b"&AKN!", 3, 4),
        refuses("bits that are not zero", b"&AKN-", 4, 4),
        refuses("six zero bits", b"&A-", 17, 2),
        refuses("six bits that are not zero", b"&B-", 4, 2),
    ]
}

/// Readings that follow from the rules, and that a reader can easily get wrong.
fn edge_readings() -> Vec<Reading> {
    [alone(), in_runs(), between_runs(), behind_runs()].into_iter().flatten().collect()
}

/// Bytes outside runs, and signs.
fn alone() -> Vec<Reading> {
    vec![
        gives("the first and the last printable byte", b" ~", &[0x20, 0x7E]),
        gives("minus, comma, plus and slash", b"-,+/", &[0x2D, 0x2C, 0x2B, 0x2F]),
        gives("two ampersands", b"&-&-", &[0x26, 0x26]),
        gives("a minus after an ampersand", b"&--", &[0x26, 0x2D]),
        refuses("a control character", b"a\x1F", 3, 1),
        refuses("DEL", b"\x7F", 3, 0),
        refuses("a tab", b"a\tb", 3, 1),
        refuses("CR and LF", b"\r\n", 3, 0),
        refuses("a high byte", b"ab\x80", 1, 2),
        refuses("an earlier fault before a high byte", b"\t\x80", 3, 0),
        refuses("a high byte after a sign", b"&\xFF", 1, 1),
        refuses("a byte of no rule after a sign", b"&\t", 2, 1),
        refuses("a sign after a sign", b"&&-", 2, 1),
        refuses("a slash after a sign", b"&/AA-", 2, 1),
        refuses("a space after a sign", b"a& b", 2, 2),
    ]
}

/// Units of runs.
fn in_runs() -> Vec<Reading> {
    vec![
        gives("plus and comma inside a run", b"&,+8-", &[0xFFEF]),
        gives("a plus begins a run of its own letters", b"&+AA-", &[0xF800]),
        gives("a comma begins a run", b"&,,8-", &[0xFFFF]),
        gives("half a surrogate pair", b"&2AA-", &[0xD800]),
        gives("just under the printable", b"&AB8-", &[0x1F]),
        gives("just over the printable", b"&AH8-", &[0x7F]),
        gives("tab, CR and LF", b"&AAkADQAK-", &[0x09, 0x0D, 0x0A]),
        gives("zero, with none left over", b"&AAAAAAAA-", &[0, 0, 0]),
        refuses("the first printable unit", b"&ACA-", 17, 3),
        refuses("the last printable unit", b"&AH4-", 17, 3),
        refuses("a letter as a second unit", b"&AKMAYQ-", 17, 6),
        refuses("an ampersand as a second unit", b"&AKMAJg-", 17, 6),
        refuses("a printable third unit", b"&AKMAowAm-", 17, 8),
        refuses("a printable unit, and bits that are not zero", b"&ACZ-", 17, 3),
        refuses("a printable unit, and an open run", b"&ACY", 17, 3),
        refuses("a printable unit, and a high byte", b"&ACY\x80", 17, 3),
        refuses("a high byte before a printable unit is full", b"&AC\x80", 1, 3),
    ]
}

/// What stands between two runs.
fn between_runs() -> Vec<Reading> {
    vec![
        gives("an ampersand between runs", b"&AKM-&-&AKM-", &[0xA3, 0x26, 0xA3]),
        gives("a byte between runs", b"&AKM-a&AKM-", &[0xA3, 0x61, 0xA3]),
        gives("a minus between runs", b"&AKM--&AKM-", &[0xA3, 0x2D, 0xA3]),
        gives("an ampersand before a run", b"&-&AKM-", &[0x26, 0xA3]),
        refuses("a sign at the end, after a run", b"&AKM-&", 2, 6),
        refuses("a bare sign after a run", b"&AKM-&!", 2, 6),
        refuses("a high byte after a sign after a run", b"&AKM-&\x80", 1, 6),
        refuses("a needless run, and bits that are not zero in it", b"&AKM-&B-", 17, 6),
        refuses("a needless run, and a printable unit in it", b"&AKM-&ACY-", 17, 6),
        refuses("a needless run that is open", b"&AKM-&A", 17, 6),
        refuses("bits that are not zero, and a needless run", b"&AKN-&AKM-", 4, 4),
        refuses("a run after two of which one was needless", b"&AKM-&AKM-&AKM-", 17, 6),
    ]
}

/// What stands behind the letters of a run.
fn behind_runs() -> Vec<Reading> {
    vec![
        gives("four bits left over", b"&AAAAAA-", &[0, 0]),
        gives("only one minus closes", b"&AKM--", &[0xA3, 0x2D]),
        refuses("twelve bits left over", b"&AA-", 17, 3),
        refuses("eight bits left over", b"&AAAA-", 17, 5),
        refuses("fourteen bits left over", b"&AAAAA-", 17, 6),
        refuses("eight bits left over that are not zero", b"&AAAB-", 4, 5),
        refuses("the first of eight bits left over", b"&AAAg-", 4, 5),
        refuses("an open run with six zero bits", b"&A", 7, 2),
        refuses("an open run with six bits that are not zero", b"&B", 7, 2),
        refuses("an open run", b"&AKM", 7, 4),
        refuses("a slash in a run", b"&AKM/", 3, 4),
        refuses("a sign in a run", b"&AKM&-", 3, 4),
        refuses("a space in a run", b"&A -", 3, 2),
        refuses("an equals sign in a run", b"&AKM=-", 3, 4),
        refuses("a control character in a run", b"&AKN\r", 3, 4),
        refuses("a high byte in a run", b"&AKN\x80", 1, 4),
    ]
}

/// Texts that name no run, or another, where UTF-7 has one; and the other way round.
fn not_utf7() -> Vec<Reading> {
    vec![
        gives("P5", b"+-", &[0x2B, 0x2D]),
        gives("P6", b"+", &[0x2B]),
        gives("P7", b"+AKN-", &[0x2B, 0x41, 0x4B, 0x4E, 0x2D]),
        gives("P8", b"+A-", &[0x2B, 0x41, 0x2D]),
        gives("P8, second clause", b"~", &[0x7E]),
        gives("a backslash", b"\\", &[0x5C]),
        gives("both signs", b"+-&-+", &[0x2B, 0x2D, 0x26, 0x2B]),
        gives("a plus after a run", b"&AKM-+AKM-", &[0xA3, 0x2B, 0x41, 0x4B, 0x4D, 0x2D]),
        refuses("a run that another byte closes", b"&AKM!", 3, 4),
        refuses("a run that the end closes", b"&AKM", 7, 4),
        refuses("a slash as a letter", b"&//8-", 2, 1),
        refuses("space, tab, CR and LF", b" \t\r\n", 3, 1),
    ]
}

/// Names stepped through. "Each step hands out the next cell complete before the first fault": one that the byte
/// refused with 17 completes is not.
fn stepped() -> Vec<Stepping> {
    vec![
        steps("no byte", b"", &[], 0, 0),
        steps("the name of order 1", b"&ZeVnLIqe-", &[(0x65E5, 1..4), (0x672C, 3..7), (0x8A9E, 6..9)], 0, 3),
        steps("the ampersand", b"a&-", &[(0x61, 0..1), (0x26, 1..3)], 0, 2),
        steps("the ampersand in a run", b"&ACY-", &[], 17, 3),
        steps("an ampersand as a second unit", b"&AKMAJg-", &[(0xA3, 1..4)], 17, 6),
        steps("a run directly after a run", b"&AKM-&AKM-", &[(0xA3, 1..4)], 17, 6),
        steps("an ampersand between runs", b"&AKM-&-&AKM-", &[(0xA3, 1..4), (0x26, 5..7), (0xA3, 8..11)], 0, 3),
        steps("a bare sign after a cell", b"a&!", &[(0x61, 0..1)], 2, 2),
        steps("a unit and then bits that are not zero", b"&AKN-", &[(0xA3, 1..4)], 4, 4),
        steps("a unit, and too many zero bits", b"&AKMA-", &[(0xA3, 1..4)], 17, 5),
        steps("a unit in an open run", b"&AKN", &[(0xA3, 1..4)], 7, 4),
        steps("a unit and then another byte", b"&AKN!", &[(0xA3, 1..4)], 3, 4),
        steps("a high byte in a run", b"&ImIDkQ\x80", &[(0x2262, 1..4), (0x391, 3..7)], 1, 7),
        steps("a control character after two cells", b"ab\tc", &[(0x61, 0..1), (0x62, 1..2)], 3, 2),
        steps("bytes and a run", b"A&ImIDkQ-.", &[(0x41, 0..1), (0x2262, 2..5), (0x391, 4..8), (0x2E, 9..10)], 0, 4),
    ]
}

/// Writings that follow from the rules, and that a writer can easily get wrong.
fn edge_writings() -> Vec<Writing> {
    vec![
        gives("no cell", &[], b""),
        gives("the name of order 1", &[0x65E5, 0x672C, 0x8A9E], b"&ZeVnLIqe-"),
        gives("the ampersand", &[0x26], b"&-"),
        gives("an ampersand parts two runs", &[0xA3, 0x26, 0xA3], b"&AKM-&-&AKM-"),
        gives("a minus after an ampersand", &[0x26, 0x2D], b"&--"),
        gives("a minus after a run", &[0xA3, 0x2D], b"&AKM--"),
        gives("plus, comma, slash, tilde and backslash", &[0x2B, 0x2C, 0x2F, 0x7E, 0x5C], b"+,/~\\"),
        gives("plus and comma inside a run", &[0xFFEF], b"&,+8-"),
        gives("the ends of the printable", &[0x1F, 0x20, 0x7E, 0x7F], b"&AB8- ~&AH8-"),
        gives("tab, CR and LF", &[0x09, 0x0D, 0x0A], b"&AAkADQAK-"),
        gives("half a surrogate pair", &[0xD800], b"&2AA-"),
        gives("no bit of filler", &[0, 0, 0], b"&AAAAAAAA-"),
        gives("two bits of filler", &[0xA3], b"&AKM-"),
        gives("four bits of filler", &[0, 0], b"&AAAAAA-"),
        refuses("cells that are no units", &[0x61, 65_536, 70_000], 10, 1),
    ]
}

/// A name that RFC 3501 calls correct, and its units.
type RfcExample = (&'static str, &'static [u32]);

const RFC_EXAMPLES: [RfcExample; 3] = [
    (
        "~peter/mail/&U,BTFw-/&ZeVnLIqe-",
        &[
            0x7E, 0x70, 0x65, 0x74, 0x65, 0x72, 0x2F, 0x6D, 0x61, 0x69, 0x6C, 0x2F, 0x53F0, 0x5317, 0x2F, 0x65E5,
            0x672C, 0x8A9E,
        ],
    ),
    ("&Jjo-!", &[0x263A, 0x21]),
    ("&U,BTF2XlZyyKng-", &[0x53F0, 0x5317, 0x65E5, 0x672C, 0x8A9E]),
];

fn rfc_readings() -> Vec<Reading> {
    let wrong = [
        refuses("no shift back before the `!`", b"&Jjo!", 3, 4),
        refuses("a superfluous shift", b"&U,BTFw-&ZeVnLIqe-", 17, 9),
    ];
    RFC_EXAMPLES.iter().map(|(name, cells)| gives(name, name.as_bytes(), cells)).chain(wrong).collect()
}

fn rfc_writings() -> Vec<Writing> {
    RFC_EXAMPLES.iter().map(|(name, cells)| gives(name, cells, name.as_bytes())).collect()
}

#[cfg(test)]
mod tests {
    use super::*;
    use crate::second::utf7;

    #[test]
    fn utf7_reads_the_texts_otherwise() {
        for example in not_utf7() {
            assert_ne!(utf7::read(&example.input), example.expected, "{example}");
        }
    }
}
