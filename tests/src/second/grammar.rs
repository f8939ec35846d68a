//! Order 7 of document 02: a text's lines against RFC 1554's formal syntax for "text". It is written from the RFC's page,
//! and neither the reader of this program nor the proved definitions were looked at: the syntax is laid out as it
//! stands, and what the order says beside it is asked of a line's bytes, since ESC stands in no line that follows the
//! syntax but where a sequence begins.

use std::sync::OnceLock;

use super::syntax::{many, optional, or, then, Laid, Syntax};

/// Whether the text's "lines, cut at each CR directly followed by LF, follow RFC 1554's formal syntax for "text", each
/// line starting in the single-byte set that the last one ended in, with a G2 designation before any single shift in its
/// line, and the whole ending in ASCII".
pub fn follows(bytes: &[u8]) -> bool {
    let lines = lines(bytes);
    let letters = lines.iter().filter_map(|line| last_letter(line));
    // "The text with "ISO-2022-JP-2" starts in ASCII".
    let ends_in_ascii = letters.last().is_none_or(|letter| letter == b'B');
    lines.iter().all(|line| is_text(line) && is_designated(line)) && ends_in_ascii
}

/// "lines, cut at each CR directly followed by LF"
fn lines(bytes: &[u8]) -> Vec<&[u8]> {
    let mut lines = Vec::new();
    let mut rest = bytes;
    while let Some(place) = find(rest, b"\r\n") {
        lines.push(&rest[..place]);
        rest = &rest[place + 2..];
    }
    lines.push(rest);
    lines
}

/// Where these bytes first stand.
fn find(bytes: &[u8], part: &[u8]) -> Option<usize> {
    bytes.windows(part.len()).position(|window| window == part)
}

/// The letter of a line's last ESC ( B or ESC ( J: of the single-byte set that it ends in, if it has one.
fn last_letter(line: &[u8]) -> Option<u8> {
    line.windows(3).rev().find(|window| window.starts_with(b"\x1B(")).map(|window| window[2])
}

/// "a G2 designation before any single shift in its line"
fn is_designated(line: &[u8]) -> bool {
    find(line, b"\x1BN").is_none_or(|shift| find(&line[..shift], b"\x1B.").is_some())
}

fn is_text(line: &[u8]) -> bool {
    static TEXT: OnceLock<Laid> = OnceLock::new();
    TEXT.get_or_init(|| Laid::new(&text())).is_followed_by(line)
}

/// text = *(single-byte-char / g2-desig-seq / single-shift-char)
/// [*segment reset-seq *(single-byte-char / g2-desig-seq / single-shift-char ) ]
fn text() -> Syntax {
    let singles = || many(or([single_byte_char(), g2_desig_seq(), single_shift_char()]));
    then([singles(), optional(then([many(segment()), reset_seq(), singles()]))])
}

/// segment = single-byte-segment / double-byte-segment
fn segment() -> Syntax {
    or([single_byte_segment(), double_byte_segment()])
}

/// single-byte-segment = single-byte-seq *(single-byte-char / g2-desig-seq / single-shift-char )
fn single_byte_segment() -> Syntax {
    then([single_byte_seq(), many(or([single_byte_char(), g2_desig_seq(), single_shift_char()]))])
}

/// double-byte-segment = double-byte-seq *((one-of-94 one-of-94) / g2-desig-seq / single-shift-char )
fn double_byte_segment() -> Syntax {
    then([double_byte_seq(), many(or([then([one_of_94(), one_of_94()]), g2_desig_seq(), single_shift_char()]))])
}

/// reset-seq = ESC "(" ( "B" / "J" )
fn reset_seq() -> Syntax {
    then([esc(), Syntax::Byte(|byte| byte == b'('), Syntax::Byte(|byte| b"BJ".contains(&byte))])
}

/// single-byte-seq = ESC "(" ( "B" / "J" )
fn single_byte_seq() -> Syntax {
    then([esc(), Syntax::Byte(|byte| byte == b'('), Syntax::Byte(|byte| b"BJ".contains(&byte))])
}

/// double-byte-seq = (ESC "$" ( "@" / "A" / "B" )) / (ESC "$" "(" ( "C" / "D" ))
fn double_byte_seq() -> Syntax {
    let dollar = || Syntax::Byte(|byte| byte == b'$');
    or([
        then([esc(), dollar(), Syntax::Byte(|byte| b"@AB".contains(&byte))]),
        then([esc(), dollar(), Syntax::Byte(|byte| byte == b'('), Syntax::Byte(|byte| b"CD".contains(&byte))]),
    ])
}

/// g2-desig-seq = ESC "." ( "A" / "F" )
fn g2_desig_seq() -> Syntax {
    then([esc(), Syntax::Byte(|byte| byte == b'.'), Syntax::Byte(|byte| b"AF".contains(&byte))])
}

/// single-shift-seq = ESC "N"
fn single_shift_seq() -> Syntax {
    then([esc(), Syntax::Byte(|byte| byte == b'N')])
}

/// single-shift-char = single-shift-seq one-of-96
fn single_shift_char() -> Syntax {
    then([single_shift_seq(), one_of_96()])
}

/// ESC = <ISO 2022 ESC, escape> ; ( 33, 27.)
fn esc() -> Syntax {
    Syntax::Byte(|byte| byte == 27)
}

/// one-of-94 = <any one of 94 values> ; (41-176, 33.-126.)
fn one_of_94() -> Syntax {
    Syntax::Byte(|byte| (33..=126).contains(&byte))
}

/// one-of-96 = <any one of 96 values> ; (40-177, 32.-127.)
fn one_of_96() -> Syntax {
    Syntax::Byte(|byte| (32..=127).contains(&byte))
}

/// single-byte-char = <any 7BIT, including bare CR & bare LF, but NOT including CRLF, and not including ESC, SI, SO>
/// A line has no CRLF, for it is cut there.
fn single_byte_char() -> Syntax {
    Syntax::Byte(|byte| byte <= 127 && ![27, 15, 14].contains(&byte))
}

#[cfg(test)]
mod tests {
    use super::*;
    use crate::examples;
    use crate::second::{jp2, LIMIT};
    use crate::texts::{self, lengths};

    #[test]
    fn lines_are_cut_at_crlf() {
        let expected: [&[u8]; 4] = [b"a\r", b"\nb\r\rc", b"", b""];
        assert_eq!(lines(b"a\r\r\n\nb\r\rc\r\n\r\n"), expected);
        assert_eq!(lines(b""), [b""]);
    }

    #[test]
    fn a_shift_comes_behind_its_designation() {
        assert!(is_designated(b"a\x1B.F\x1BNA\x1BNB"));
        assert!(!is_designated(b"\x1BNA\x1B.F"));
    }

    #[test]
    fn each_production_has_its_bytes() {
        let has = |syntax: Syntax, bytes: &[u8]| Laid::new(&syntax).is_followed_by(bytes);
        for last in 0..=255u8 {
            assert_eq!(has(reset_seq(), &[27, b'(', last]), b"BJ".contains(&last));
            assert_eq!(has(double_byte_seq(), &[27, b'$', last]), b"@AB".contains(&last));
            assert_eq!(has(double_byte_seq(), &[27, b'$', b'(', last]), b"CD".contains(&last));
            assert_eq!(has(g2_desig_seq(), &[27, b'.', last]), b"AF".contains(&last));
            assert_eq!(has(single_shift_char(), &[27, b'N', last]), (32..=127).contains(&last));
            assert_eq!(has(single_byte_char(), &[last]), last < 128 && ![14, 15, 27].contains(&last));
        }
        assert!(has(segment(), b"\x1B$B!!!!\x1B.A\x1BN \x1BN\x7F"));
        assert!(!has(segment(), b"\x1B$B!!!"));
        assert!(!has(segment(), b"\x1B$B!!\x1B(B\x1B(J"));
        assert!(has(text(), b"") && has(text(), b"\x1B(J") && has(text(), b"\x1B$B!!\x1B(Ja\x1B$(C\x1B(B"));
        assert!(!has(text(), b"\x1B$B!!") && !has(text(), b"\x1B$B\x1B$B"));
    }

    #[test]
    fn what_the_examples_accept_follows() {
        for example in examples::jp2::readings().iter().flat_map(|group| &group.examples) {
            assert_eq!(follows(&example.input), example.expected.is_ok(), "{example}");
        }
    }

    #[test]
    fn what_the_reader_of_this_program_accepts_follows() {
        let source = &texts::jp2::SOURCE;
        let seeded = source.texts(1, "texts for the grammar", 20_000, lengths::mostly_short);
        for text in texts::up_to_two_bytes().chain(seeded).filter(|text| text.len() <= LIMIT) {
            assert_eq!(follows(&text), jp2::read(&text).is_ok(), "{}", text.escape_ascii());
        }
    }
}
