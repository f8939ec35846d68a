//! Texts and lists of UTF-7.

use super::{Alphabet, Frame, Source};
use crate::rng::Rng;
use crate::second::utf7::{self, Style};

pub static SOURCE: Source = Source {
    telling_bytes: b"++--//AABQgwZaz09'.:?!\"=@`{}~\\ \t\r\n\x00\x1B\x7F\x80\xA3\xFF",
    telling_parts: &[b"+", b"-", b"+-", b"+A", b"+AKM", b"+AKM-", b"+AKN-", b"+AAAA-", b"AAA", b".", b"!", b"\r\n"],
    opener: b'+',
    // A run that is accepted holds a unit.
    needless: b"",
    whole,
    frames: &[
        Frame(b"", b"a", b""),
        Frame(b"+", b"A", b""),
        Frame(b"+", b"A", b"-"),
        Frame(b"", b"a", b"+AKM-"),
        Frame(b"", b"a", b"+AKN"),
        Frame(b"+", b"A", b"\x80"),
        Frame(b"~", b"a", b""),
        Frame(b"", b"a", b"~"),
        Frame(b"", b"a", b"+"),
    ],
    alphabets: &[
        Alphabet {
            name: "five-bytes",
            what: "every text of up to five of the bytes + - / A Q . ~ and one over 127",
            around: [b"", b""],
            parts: &[b"+", b"-", b"/", b"A", b"Q", b".", b"~", b"\x80"],
            longest: 5,
        },
        // Runs of several units, with every count of bits left over.
        Alphabet {
            name: "six-parts",
            what: "every text of up to six of + AKM A Q - . and a byte over 127",
            around: [b"", b""],
            parts: &[b"+", b"AKM", b"A", b"Q", b"-", b".", b"\x80"],
            longest: 6,
        },
    ],
    cells: units,
    unwritable,
    lone_cells,
    patterns: &[&[0x61], &[0x65E5], &[0xA3, 0x2D, 0x2B]],
};

/// Units of every kind that the rules of UTF-7 tell apart.
const TELLING_UNITS: &[u32] = &[
    0x0000, 0x0009, 0x000A, 0x000D, 0x0020, 0x0021, 0x002B, 0x002B, 0x002D, 0x002D, 0x002E, 0x002F, 0x0031, 0x0041,
    0x003D, 0x005C, 0x0060, 0x007A, 0x007E, 0x007F, 0x0080, 0x00A3, 0x0391, 0x2262, 0x263A, 0x65E5, 0xD800, 0xDBFF,
    0xDC00, 0xDFFF, 0xFBEF, 0xFFFF,
];

/// Runs that are short, or easy to get wrong; all are whole.
const ODD_RUNS: &[&[u8]] =
    &[b"+-", b"+AAA-", b"+AAAAAA-", b"+AAAAAAAA-", b"+AAA.", b"+AAAAAA!", b"+-+-", b"+AKM--", b"+//8-", b"+++8-"];

fn whole(rng: &mut Rng, length: usize) -> Vec<u8> {
    let mut text = Vec::new();
    loop {
        let piece = whole_piece(rng, length - text.len());
        if text.len() + piece.len() > length {
            break;
        }
        text.extend(piece);
    }
    if rng.one_in(2) {
        text.resize(length, b'.');
    } else if text.ends_with(b"-") && !text.ends_with(b"+-") {
        text.pop(); // where this opens the last run again, the end of the text closes it
    }
    text
}

/// A piece of a whole text: what the second program writes, or a looser spelling.
fn whole_piece(rng: &mut Rng, room: usize) -> Vec<u8> {
    let most = if rng.one_in(8) { 1 + room / 5 } else { 1 + room.min(60) / 5 };
    let count = rng.between(1, most);
    let units = units(rng, count);
    match rng.below(8) {
        0..=1 => utf7::write(Style::Header, &units).expect("units"),
        2..=3 => utf7::write(Style::Body, &units).expect("units"),
        4..=6 => loose_run(rng, &units),
        _ => rng.pick(ODD_RUNS).to_vec(),
    }
}

/// One run for all these units, direct ones too, closed by `-` or another byte.
fn loose_run(rng: &mut Rng, units: &[u32]) -> Vec<u8> {
    let mut text = utf7::run(units);
    text.pop();
    text.push(rng.pick(b"--.! \t\r\n,?=`"));
    text
}

/// So many units, among them stretches of one kind.
pub fn units(rng: &mut Rng, count: usize) -> Vec<u32> {
    let mut units = Vec::new();
    while units.len() < count {
        let kind = rng.below(5);
        let stretch = rng.between(1, 6).min(count - units.len());
        units.extend((0..stretch).map(|_| unit(rng, kind)));
    }
    units
}

fn unit(rng: &mut Rng, kind: usize) -> u32 {
    match kind {
        0 => rng.pick(TELLING_UNITS),
        1 => rng.between(0x20, 0x7E) as u32,
        2 => rng.between(0x80, 0x7FF) as u32,
        3 => rng.between(0x3000, 0xDFFF) as u32,
        _ => rng.below(65_536) as u32,
    }
}

/// A cell over 65,535: barely, by its high half alone, or anyhow.
pub fn unwritable(rng: &mut Rng) -> u32 {
    match rng.below(4) {
        0 => 65_536,
        1 => u32::MAX,
        2 => (rng.between(1, 200) as u32) << 16 | rng.between(0x20, 0x7E) as u32,
        _ => 65_536 + rng.below(usize::try_from(u32::MAX - 65_535).expect("64 bits")) as u32,
    }
}

/// Every unit, and larger cells.
pub fn lone_cells() -> Vec<u32> {
    (0..=65_535).chain([65_536, 0x0041_0041, u32::MAX]).collect()
}
