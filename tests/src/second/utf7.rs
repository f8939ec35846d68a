//! UTF-7, after the section "UTF-7" of document 01 and order 3 of document 02.

use super::bits::{bits, number};
use super::reading::{self, first_fault, Cursor, Found};
use super::run::Run;
use super::{all_writable, within_limit, Answer, Complete, Elements, Steps};

/// "Writing has two styles."
#[derive(Clone, Copy, Debug, PartialEq, Eq)]
pub enum Style {
    Header,
    Body,
}

const PLUS_SIGN: u32 = 0x2B;

/// "Set D: letters, digits, and `' ( ) , - . / : ?`."
fn in_set_d(byte: u8) -> bool {
    byte.is_ascii_alphanumeric() || b"'(),-./:?".contains(&byte)
}

/// "Set O: ``! " # $ % & * ; < = > @ [ ] ^ _ ` { | }``."
fn in_set_o(byte: u8) -> bool {
    b"!\"#$%&*;<=>@[]^_`{|}".contains(&byte)
}

/// "Header style writes D, space, tab, CR and LF as themselves; body style adds O."
fn is_direct(style: Style, byte: u8) -> bool {
    in_set_d(byte) || b" \t\r\n".contains(&byte) || (style == Style::Body && in_set_o(byte))
}

/// "Set B: letters, digits, `+`, `/`, with their RFC 2045 values 0 to 63": the set in the order of the values.
fn set_b() -> impl Iterator<Item = u8> {
    (b'A'..=b'Z').chain(b'a'..=b'z').chain(b'0'..=b'9').chain([b'+', b'/'])
}

/// The value of a byte, if it is in set B.
fn value(byte: u8) -> Option<usize> {
    set_b().position(|letter| letter == byte)
}

/// Reads a text.
pub fn read(text: &[u8]) -> Elements<u32> {
    reading::read(find, Before::Outside, text)
}

/// Steps through a text.
pub fn steps(text: &[u8]) -> Steps {
    reading::steps(find, text, Cursor { at: 0, handed: 0, before: Before::Outside })
}

/// Steps from a cursor with these numbers, in the order of the C interface: "0 outside a run, 1 directly after '+',
/// else in a run" with so many bits that wait, and their value. Any count is taken by sixteen.
pub fn steps_from(text: &[u8], numbers: &[u64]) -> Steps {
    let &[at, handed, shift, pending, value] = numbers else { panic!("five numbers") };
    let before = match shift {
        0 => Before::Outside,
        1 => Before::Plus,
        _ => Before::Run(bits(value as usize, pending as usize % 16).collect()),
    };
    reading::steps(find, text, Cursor { at: at as usize, handed: handed as usize, before })
}

/// Whether an accepted text ends outside a run: the last, if it has one, was ended by a byte.
pub fn ends_outside(text: &[u8]) -> bool {
    match cut(text, 0, Before::Outside).last() {
        Some(Piece::Run(run)) => run.end() < text.len(),
        _ => true,
    }
}

/// What of the text before a place still matters there.
enum Before {
    Outside,
    Plus,
    /// In a run, the bits that wait for a full sixteen.
    Run(Vec<usize>),
}

fn find(text: &[u8], at: usize, before: Before) -> Found {
    let pieces = cut(text, at, before);
    Found {
        cells: pieces.iter().flat_map(Piece::cells).collect(),
        fault: first_fault(text, at, pieces.iter().filter_map(Piece::fault)),
    }
}

/// A part of a text that is read by itself. `end` is where it is noticed that the part is over: "the index of the byte
/// in hand, or the text length at the end".
enum Piece {
    Outside { byte: u8, place: usize },
    PlusSign { end: usize },
    BarePlus { end: usize },
    Run(Run),
}

/// Cuts a text into its pieces, from left to right.
fn cut(text: &[u8], at: usize, before: Before) -> Vec<Piece> {
    let mut pieces = Vec::new();
    let mut place = at;
    let mut before = before;
    // Nothing that waits for more may be left unjudged at the end.
    while place < text.len() || !matches!(before, Before::Outside) {
        let (piece, length) = first_piece(&text[place..], place, before);
        pieces.push(piece);
        place += length;
        before = Before::Outside;
    }
    pieces
}

/// The first piece of what is left of a text from this place on, and how many bytes it takes from there.
fn first_piece(rest: &[u8], place: usize, before: Before) -> (Piece, usize) {
    let waiting = match before {
        Before::Outside if rest[0] == b'+' => {
            let (piece, length) = first_piece(&rest[1..], place + 1, Before::Plus);
            return (piece, 1 + length);
        }
        Before::Outside => return (Piece::Outside { byte: rest[0], place }, 1),
        Before::Plus => None,
        Before::Run(bits) => Some(bits),
    };
    // "`+` and a byte of B opens a run." "Any byte outside B ends it." "The end of the text ends a run too."
    let letters: Vec<usize> = rest.iter().map_while(|&byte| value(byte)).collect();
    // "`-` is then absorbed; another byte is read as outside a run."
    let absorbed = rest.get(letters.len()) == Some(&b'-');
    let end = place + letters.len();
    let piece = match (waiting, letters.is_empty(), absorbed) {
        (None, true, true) => Piece::PlusSign { end },
        (None, true, false) => Piece::BarePlus { end },
        (waiting, ..) => Piece::Run(Run::new(&waiting.unwrap_or_default(), &letters, place)),
    };
    (piece, letters.len() + usize::from(absorbed))
}

impl Piece {
    /// The cells of this piece, where no fault stands before them.
    fn cells(&self) -> Vec<Complete> {
        match self {
            // "Outside a run, bytes of D, O, space, tab, CR and LF are themselves."
            Piece::Outside { byte, place } => vec![Complete::of_last(1, place + 1, u32::from(*byte))],
            // "`+-` is 002B": "the two bytes of `+-`".
            Piece::PlusSign { end } => vec![Complete::of_last(2, end + 1, PLUS_SIGN)],
            Piece::BarePlus { .. } => vec![],
            Piece::Run(run) => run.units().collect(),
        }
    }

    fn fault(&self) -> Option<Answer> {
        match self {
            // "3 | byte that no rule allows there | that byte"
            Piece::Outside { byte, place } if !is_direct(Style::Body, *byte) => {
                Some(Answer { number: 3, place: *place })
            }
            // "2 | `+` followed by neither B nor `-`, or by the end | as noticed"
            Piece::BarePlus { end } => Some(Answer { number: 2, place: *end }),
            // "4 | left-over bits not zero | as noticed"
            Piece::Run(run) if !may_be_left(run.left_over()) => Some(Answer { number: 4, place: run.end() }),
            _ => None,
        }
    }
}

/// "Bits left over when a run ends must all be zero"; and "six or more left-over bits are a fault even when all are
/// zero".
fn may_be_left(bits: &[usize]) -> bool {
    bits.len() < 6 && !bits.contains(&1)
}

/// Writes cells in a style.
pub fn write(style: Style, cells: &[u32]) -> Elements<u8> {
    within_limit(cells.len())?;
    // "UTF-7 cells are UTF-16 units, 0 to 65535."
    all_writable(cells, |cell| cell <= 65_535)?;
    // "Each longest stretch of other units is one run."
    let stretches = cells.chunk_by(|&left, &right| alone(style, left).is_none() && alone(style, right).is_none());
    Ok(stretches.flat_map(|stretch| alone(style, stretch[0]).unwrap_or_else(|| run(stretch))).collect())
}

/// How a unit that needs no run is written: as itself, and "`+` is always `+-`".
fn alone(style: Style, unit: u32) -> Option<Vec<u8>> {
    match u8::try_from(unit) {
        Ok(b'+') => Some(b"+-".to_vec()),
        Ok(byte) if is_direct(style, byte) => Some(vec![byte]),
        _ => None,
    }
}

/// "one run: `+`, its letters with fewest zero bits as filler, and always `-`."
pub fn run(units: &[u32]) -> Vec<u8> {
    let mut bits: Vec<usize> = units.iter().flat_map(|&unit| bits(unit as usize, 16)).collect();
    while !bits.len().is_multiple_of(6) {
        bits.push(0);
    }
    let letters = bits.chunks(6).map(|six| set_b().nth(number(six)).expect("six bits"));
    [b'+'].into_iter().chain(letters).chain([b'-']).collect()
}
