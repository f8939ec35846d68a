//! Comparing: the same cells by other bytes, where texts part, and whose refusal is told.

use qalithonda::{jp2, mailbox, utf7, Comparison, Refusal, Refused, RefusedText, Text, LIMIT};

fn same(count: usize) -> Result<Comparison, RefusedText> {
    Ok(Comparison::Same { count })
}

fn part(index: usize, first: usize, second: usize) -> Result<Comparison, RefusedText> {
    Ok(Comparison::Part { index, first, second })
}

fn refused(text: Text, refusal: Refusal, place: usize) -> Result<Comparison, RefusedText> {
    Err(RefusedText { text, refused: Refused { refusal, place } })
}

#[test]
fn texts_of_the_same_cells_are_the_same() {
    assert_eq!(utf7::compare(b"", b""), same(0));
    assert_eq!(utf7::compare(b"A+ImIDkQ.", b"A+ImI-+A5E-."), same(4));
    assert_eq!(utf7::compare(b"a+AKM", b"a+AKM-"), same(2));
    assert_eq!(utf7::compare(b"Hi+ACE-", b"Hi!"), same(3));
    assert_eq!(jp2::compare(b"a", b"\x1b(Ba"), same(1));
    assert_eq!(mailbox::compare(b"R&-D", b"R&-D"), same(3));
}

#[test]
fn texts_part_where_a_cell_begins_or_a_text_ends() {
    assert_eq!(utf7::compare(b"A+ImIDkQ.", b"A+ImI-+A5A-."), part(2, 4, 7));
    assert_eq!(utf7::compare(b"a+AGI-", b"abc"), part(2, 6, 2));
    assert_eq!(utf7::compare(b"abc", b"a+AGI-"), part(2, 2, 6));
    assert_eq!(jp2::compare(b"\x1b(Ba", b"b"), part(0, 3, 0));
    assert_eq!(mailbox::compare(b"a&-b", b"a&-&AKM-"), part(2, 3, 4));
}

#[test]
fn a_refusal_of_the_first_comes_before_one_of_the_second() {
    assert_eq!(utf7::compare(b"ax~", b"by"), refused(Text::First, Refusal::StrayByte, 2));
    assert_eq!(utf7::compare(b"ax", b"by~"), refused(Text::Second, Refusal::StrayByte, 2));
    assert_eq!(utf7::compare(b"abc~", b"~"), refused(Text::First, Refusal::StrayByte, 3));
    assert_eq!(jp2::compare(b"a", b"b\x1b"), refused(Text::Second, Refusal::CutShort, 2));
    assert_eq!(mailbox::compare(b"ab", b"b&A-"), refused(Text::Second, Refusal::NeedlessShift, 3));
    let long = vec![b'a'; LIMIT + 1];
    assert_eq!(utf7::compare(&long, b"~"), refused(Text::First, Refusal::OverLimit, LIMIT));
    assert_eq!(utf7::compare(b"b", &long), refused(Text::Second, Refusal::OverLimit, LIMIT));
    assert_eq!(utf7::compare(b"~", &long), refused(Text::First, Refusal::StrayByte, 0));
}
