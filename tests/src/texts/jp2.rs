//! Texts and lists of JP-2.

use super::{Alphabet, Frame, Source};
use crate::rng::Rng;
use crate::second::jp2::{self, Set, To, ASCII, SETS};

pub static SOURCE: Source = Source {
    telling_bytes: b"\x1B\x1B\x1B\x1B(($$..NNBBAAJ@CDFIa!~ \r\r\n\n\x00\x0E\x0F\x1F\x7F\x80\xA4\xFF",
    telling_parts: PARTS,
    opener: b'\x1B',
    needless: b"\x1B(B",
    whole,
    frames: &[
        Frame(b"", b"a", b""),
        Frame(b"\x1B$B", b"!~", b"\x1B(B"),
        Frame(b"\x1B$B", b"!~", b""),
        Frame(b"\x1B(J", b"a ", b"\x1B(B"),
        Frame(b"\x1B(J", b"a ", b""),
        Frame(b"\x1B.A", b"\x1BNA", b""),
        Frame(b"\x1B.F", b"\n", b"\x1BNA"),
        Frame(b"\x1B.F", b"\r\n", b"\x1BNA"),
        Frame(b"", b"\x1B(B", b"a"),
        Frame(b"", b"a", b"\x1B$("),
        Frame(b"", b"a", b"\x80"),
        Frame(b"", b"a", b"\x0E"),
        Frame(b"\x0F", b"a", b""),
        Frame(b"\x1B(A", b"a", b"\x80"),
    ],
    alphabets: &[
        Alphabet {
            name: "five-bytes",
            what: "every text of up to five of the bytes ESC ( $ . N B A @ CR LF and the letter C",
            around: [b"", b""],
            parts: &[b"\x1B", b"(", b"$", b".", b"N", b"B", b"A", b"@", b"\r", b"\n", b"C"],
            longest: 5,
        },
        Alphabet {
            name: "six-parts",
            what: "every text of up to six of ESC ( B, ESC ( J, ESC $ B, ESC . A, ESC N A, a letter, CR and LF",
            around: [b"", b""],
            parts: &[b"\x1B(B", b"\x1B(J", b"\x1B$B", b"\x1B.A", b"\x1BNA", b"a", b"\r", b"\n"],
            longest: 6,
        },
        Alphabet {
            name: "three-parts",
            what: "every text of up to three of many parts",
            around: [b"", b""],
            parts: PARTS,
            longest: 3,
        },
    ],
    cells,
    unwritable,
    lone_cells,
    patterns: &[
        &[0x0006_0061],
        &[0x0057_2422],
        &[0x0095_2121, 0x009F_2121],
        &[0x0064_0041, 0x007E_0041],
        &[0x000E_0061, 0x0006_0020],
        &[0x0064_0041, 0x0006_000D, 0x0006_000A],
        &[0x002A_2121, 0x0064_0041, 0x003A_2121],
    ],
};

/// Parts of texts of every kind that the rules of JP-2 tell apart: each designation, others that look like one, ESC N,
/// line ends, cells, and bytes that are not allowed.
const PARTS: &[&[u8]] = &[
    b"\x1B(B",
    b"\x1B(J",
    b"\x1B$@",
    b"\x1B$B",
    b"\x1B$A",
    b"\x1B$(C",
    b"\x1B$(D",
    b"\x1B.A",
    b"\x1B.F",
    b"\x1B$(B",
    b"\x1B(A",
    b"\x1B.B",
    b"\x1B",
    b"\x1BN",
    b"\x1BNA",
    b"\x1BN\x7F",
    b"\r",
    b"\n",
    b"\r\n",
    b"a",
    b"!~",
    b" ",
    b"\x7F",
    b"\x0E",
    b"\x80",
];

/// Line ends; of these bytes only CR directly followed by LF clears G2.
const LINE_ENDS: &[&[u8]] = &[b"\r\n", b"\r\n", b"\r\n", b"\n", b"\r", b"\n\r", b"\r\r\n"];

/// The sets of single bytes in G0.
static SINGLE: [&Set; 2] = [&SETS[0], &SETS[1]];

/// The sets in G2.
static SHIFTED: [&Set; 2] = [&SETS[7], &SETS[8]];

/// A whole text in the making, and the sets in force at its end.
struct Draft {
    text: Vec<u8>,
    g0: &'static Set,
    g2: Option<&'static Set>,
}

fn whole(rng: &mut Rng, length: usize) -> Vec<u8> {
    let mut draft = Draft { text: Vec::new(), g0: ASCII, g2: None };
    loop {
        let (kept, g0) = (draft.text.len(), draft.g0);
        draft.extend(rng, length - kept);
        if draft.text.len() + ASCII.designation.len() > length {
            draft.text.truncate(kept);
            draft.g0 = g0;
            break;
        }
    }
    if draft.g0 != ASCII {
        draft.designate(ASCII);
    }
    if rng.one_in(2) {
        draft.text.resize(length, b'.');
    }
    draft.text
}

impl Draft {
    /// Adds a few cells, a designation or a line end.
    fn extend(&mut self, rng: &mut Rng, room: usize) {
        let most = if rng.one_in(8) { 1 + room / 6 } else { 1 + room.min(60) / 6 };
        let count = rng.between(1, most);
        match rng.below(10) {
            0..=1 => self.designate(rng.pick(&SETS.each_ref())),
            2..=4 => self.add_stretch(rng, count),
            5..=6 => self.add_shifts(rng, count.min(3)),
            7..=8 => self.add_line_end(rng),
            _ => self.add_written(rng, count),
        }
    }

    fn designate(&mut self, set: &'static Set) {
        self.text.extend(set.designation);
        match set.to {
            To::G0 => self.g0 = set,
            To::G2 => self.g2 = Some(set),
        }
    }

    fn add_stretch(&mut self, rng: &mut Rng, count: usize) {
        for _ in 0..count {
            // With Roman in G0, bytes that carry ASCII's number too.
            let set = if rng.one_in(4) && !self.g0.has_pairs() { ASCII } else { self.g0 };
            self.text.extend(code(rng, set));
        }
    }

    fn add_shifts(&mut self, rng: &mut Rng, count: usize) {
        if self.g2.is_none() || rng.one_in(4) {
            self.designate(rng.pick(&SHIFTED));
        }
        for _ in 0..count {
            self.text.extend(b"\x1BN");
            self.text.extend(code(rng, SHIFTED[0]));
        }
    }

    fn add_line_end(&mut self, rng: &mut Rng) {
        if self.g0.has_pairs() {
            self.designate(rng.pick(&SINGLE));
        }
        let needless = rng.one_in(6).then(|| rng.pick(&SINGLE));
        for &byte in rng.pick(LINE_ENDS) {
            self.text.push(byte);
            if self.text.ends_with(b"\r\n") {
                self.g2 = None;
            }
            if let Some(set) = needless {
                self.designate(set);
            }
        }
    }

    /// Adds a line as the second program writes it.
    fn add_written(&mut self, rng: &mut Rng, count: usize) {
        self.designate(ASCII);
        self.text.extend(jp2::write(&cells(rng, count)).expect("writable cells"));
        self.text.extend(b"\r\n");
        self.g2 = None;
    }
}

/// The code of a cell of this set; line ends are left out.
fn code(rng: &mut Rng, set: &Set) -> Vec<u8> {
    if set == ASCII && rng.one_in(4) {
        return vec![rng.pick(b"  \t\x00\x0C\x1A\x1C\x1F\x7F")];
    }
    let (first, last) = if set.to == To::G2 { (32, 127) } else { (33, 126) };
    let length = if set.has_pairs() { 2 } else { 1 };
    let mut byte = || if rng.one_in(4) { rng.pick(&[first, last]) } else { rng.between(first, last) };
    (0..length).map(|_| byte() as u8).collect()
}

/// So many writable cells: stretches of a few sets by turns, and line ends.
fn cells(rng: &mut Rng, count: usize) -> Vec<u32> {
    let few: Vec<&Set> = (0..rng.between(1, 9)).map(|_| rng.pick(&SETS.each_ref())).collect();
    let mut cells = Vec::new();
    while cells.len() < count {
        let set = rng.pick(&few);
        for _ in 0..rng.between(1, 5) {
            cells.push(jp2::cell(set, &code(rng, set)));
        }
        if rng.one_in(4) {
            cells.extend(rng.pick(LINE_ENDS).iter().map(|&byte| jp2::cell(ASCII, &[byte])));
        }
    }
    cells.truncate(count);
    cells
}

/// A cell that is not writable: by a byte of its code, by the length of its code, by its number, or anyhow.
fn unwritable(rng: &mut Rng) -> u32 {
    let set = rng.pick(&SETS.each_ref());
    let wrong = rng.pick(b"\x00\x0A\x0D\x0E\x0F\x1B\x1F\x20\x7F\x80\xA1\xFF");
    let right = rng.between(33, 126) as u8;
    let cell = match rng.below(6) {
        0 => jp2::cell(set, &[wrong]),
        1 => jp2::cell(set, &[wrong, right]),
        2 => jp2::cell(set, &[right, wrong]),
        3 => jp2::cell(set, &[right, right][..rng.between(1, 2)]),
        4 => 65_536 * rng.below(300) as u32 + u32::from(right),
        _ => rng.next() as u32,
    };
    if jp2::is_writable(cell) {
        unwritable(rng)
    } else {
        cell
    }
}

/// Every code with the number of each set, and a few codes with every number up to 300 and with the largest.
fn lone_cells() -> Vec<u32> {
    let of_sets = SETS.iter().flat_map(|set| (0..=65_535).map(|code| 65_536 * set.number + code));
    let others = (0..=300).chain([65_535]).flat_map(|number| [0x41, 0x0A, 0x2121].map(|code| 65_536 * number + code));
    of_sets.chain(others).collect()
}

#[cfg(test)]
mod tests {
    use super::*;
    use crate::texts::lengths;

    fn seeded_texts() -> Vec<Vec<u8>> {
        SOURCE.texts(1, "", 3_000, lengths::for_listers).collect()
    }

    #[test]
    fn texts_and_lists_have_cells_of_every_set() {
        let readings: Vec<Vec<u32>> = seeded_texts().iter().filter_map(|text| jp2::read(text).ok()).collect();
        let lists: Vec<Vec<u32>> = SOURCE.lists(1, "", 3_000).collect();
        for lists in [readings, lists] {
            for set in &SETS {
                let has_set = |list: &&Vec<u32>| list.iter().any(|cell| cell / 65_536 == set.number);
                assert!(lists.iter().filter(has_set).count() > 200, "few lists have set {}", set.number);
            }
        }
    }

    #[test]
    fn texts_have_g2_over_line_ends() {
        let texts = seeded_texts();
        for part in [&b"\n\x1BN"[..], b"\r\x1BN", b"\r\n\x1BN", b"\r\n\x1B.A\x1BN", b"\r\x1B(B\n"] {
            let has_part = |text: &&Vec<u8>| text.windows(part.len()).any(|window| window == part);
            assert!(texts.iter().filter(has_part).count() > 10, "few texts have {}", part.escape_ascii());
        }
    }
}
