//! Stepping: the same cells and the same answer as reading, and where each cell stands.

use std::ops::Range;

use qalithonda::{jp2, mailbox, utf7, Refusal, Refused, Step, Steps, LIMIT};

const TEXTS: [&[u8]; 17] = [
    b"",
    b"A+ImIDkQ.",
    b"+ZeVnLIqe-",
    b"+",
    b"+AKN-",
    b"A+ImIDkQ~",
    b"\x80",
    b"\x1b$B$\"\x1b(B",
    b"\x1b$B$\"",
    b"\x1b.A\x1bNA\r\n\x1bNA",
    b"a\x1b(Jb c\x1b$(C!!\x1b(Bd",
    b"\x1b$(",
    b"A&ImIDkQ-&-.",
    b"&AKM-&AKM-",
    b"&ACY-",
    b"&AKN",
    b"&",
];

fn cells(steps: Steps) -> Vec<u32> {
    steps.map(|step| step.cell).collect()
}

fn bytes(steps: Steps) -> Vec<Range<usize>> {
    steps.map(|step| step.bytes).collect()
}

#[test]
fn the_answer_is_that_of_reading() {
    for text in TEXTS {
        let count = |read: Result<Vec<u32>, Refused>| read.map(|cells| cells.len());
        assert_eq!(utf7::steps(text).answer(), count(utf7::read_to_vec(text)));
        assert_eq!(jp2::steps(text).answer(), count(jp2::read_to_vec(text)));
        assert_eq!(mailbox::steps(text).answer(), count(mailbox::read_to_vec(text)));
    }
}

#[test]
fn the_cells_are_those_of_reading() {
    for text in TEXTS {
        if let Ok(read) = utf7::read_to_vec(text) {
            assert_eq!(cells(utf7::steps(text)), read);
        }
        if let Ok(read) = jp2::read_to_vec(text) {
            assert_eq!(cells(jp2::steps(text)), read);
        }
        if let Ok(read) = mailbox::read_to_vec(text) {
            assert_eq!(cells(mailbox::steps(text)), read);
        }
    }
}

#[test]
fn cells_before_a_fault_are_handed_out() {
    let steps = utf7::steps(b"A+ImIDkX-");
    assert_eq!(cells(steps.clone()), [0x41, 0x2262, 0x391]);
    assert_eq!(steps.answer(), Err(Refused { refusal: Refusal::LeftOverBits, place: 8 }));
    assert_eq!(cells(jp2::steps(b"a\x1b$B$\"$")), [0x060061, 0x572422]);
    assert_eq!(cells(mailbox::steps(b"a&AKMAJg-")), [0x61, 0xA3]);
}

#[test]
fn each_cell_has_its_bytes() {
    assert_eq!(bytes(utf7::steps(b"A+ImIDkQ.")), [0..1, 2..5, 4..8, 8..9]);
    assert_eq!(bytes(utf7::steps(b"a+-b+AKM-1")), [0..1, 1..3, 3..4, 5..8, 9..10]);
    assert_eq!(bytes(utf7::steps(b"+ZeVnLIqeZeVnLIqe-")), [1..4, 3..7, 6..9, 9..12, 11..15, 14..17]);
    assert_eq!(bytes(mailbox::steps(b"a&-&ZeVnLIqe-")), [0..1, 1..3, 4..7, 6..10, 9..12]);
    // A pair, ESC N and a byte, a pair, a byte; no designation.
    assert_eq!(bytes(jp2::steps(b"\x1b$B$\"\x1b.A\x1bNA$$\x1b(Bb")), [3..5, 8..11, 11..13, 16..17]);
}

#[test]
fn no_bytes_go_back_or_past_the_end() {
    for text in TEXTS {
        for steps in [utf7::steps(text), jp2::steps(text), mailbox::steps(text)] {
            let mut before = 0..0;
            for Step { bytes, .. } in steps {
                assert!(!text[bytes.clone()].is_empty());
                assert!(before.start <= bytes.start && before.end <= bytes.end);
                before = bytes;
            }
        }
    }
}

/// Steps through all, and asks for the answer before each step and twice at the end.
fn asked_at_each_step(mut steps: Steps, cells: &[u32]) {
    let answer = steps.answer();
    for cell in cells {
        assert_eq!(steps.answer(), answer);
        assert_eq!(steps.next().map(|step| step.cell), Some(*cell));
    }
    for _ in 0..2 {
        assert_eq!(steps.next(), None);
        assert_eq!(steps.answer(), answer);
    }
}

#[test]
fn the_answer_can_be_asked_at_any_time() {
    asked_at_each_step(utf7::steps(b"A+ImIDkQ."), &[0x41, 0x2262, 0x391, 0x2E]);
    asked_at_each_step(utf7::steps(b"A+ImIDkQ~"), &[0x41, 0x2262, 0x391]);
    asked_at_each_step(jp2::steps(b"a\x1b$B$\"\x1b(B"), &[0x060061, 0x572422]);
    asked_at_each_step(jp2::steps(b"\x1b.A\x1bNA\r\n\x1bNA"), &[0x640041, 0x06000D, 0x06000A]);
    asked_at_each_step(mailbox::steps(b"A&ImIDkQ-&-"), &[0x41, 0x2262, 0x391, 0x26]);
    asked_at_each_step(mailbox::steps(b"A&ImIDkQ-&A-"), &[0x41, 0x2262, 0x391]);
}

#[test]
fn steps_outlive_all_but_their_text() {
    fn words(text: &[u8]) -> impl Iterator<Item = u32> + '_ {
        utf7::steps(text).map(|step| step.cell).filter(|cell| *cell != 0x20)
    }
    let text = vec![b'a', b' ', b'b'];
    assert_eq!(words(&text).collect::<Vec<_>>(), [0x61, 0x62]);
}

#[test]
fn a_text_over_the_limit_is_refused_at_once() {
    let text = vec![b'A'; LIMIT + 1];
    for mut steps in [utf7::steps(&text), jp2::steps(&text), mailbox::steps(&text)] {
        assert_eq!(steps.next(), None);
        assert_eq!(steps.answer(), Err(Refused { refusal: Refusal::OverLimit, place: LIMIT }));
    }
    assert_eq!(utf7::steps(&text[1..]).count(), LIMIT);
    assert_eq!(jp2::steps(&text[1..]).answer(), Ok(LIMIT));
    assert_eq!(mailbox::steps(&text[1..]).answer(), Ok(LIMIT));
}
