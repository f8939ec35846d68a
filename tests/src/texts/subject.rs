//! Subject lines.

use super::{utf7, Alphabet, Frame, Source};
use crate::rng::Rng;
use crate::second::{subject, utf7 as second};

pub static SOURCE: Source = Source {
    telling_bytes: b"==??__  ++--AAKMaz09EFQq~\\\t\r\n\x00\x1B\x7F\x80\xFF",
    telling_parts: &[
        b"=?utf-7?Q?",
        b"?=",
        b"?=\r\n =?utf-7?Q?",
        b"\r\n ",
        b"=41",
        b"=80",
        b"=2B",
        b"+AKM",
        b"+AKN",
        b"_",
    ],
    opener: b'?',
    needless: b"",
    whole,
    frames: &[
        Frame(b"=?utf-7?Q?a?=", b"\r\n =?utf-7?Q?a?=", b""),
        Frame(b"", b"=?utf-7?Q?aaaaaaaaaaaaaaaaaaaaaaaaaaaaaa?=\r\n ", b""),
        Frame(b"=?utf-7?Q?", b"a", b""),
        Frame(b"~", b"a", b""),
    ],
    alphabets: &[
        Alphabet {
            name: "five-parts",
            what: "every word of up to five of the characters and pairs that matter",
            around: [b"=?utf-7?Q?", b"?="],
            parts: &[b"+", b"AKM", b"A", b"-", b"_", b"=", b"=2B", b"=80", b"?", b"~", b" "],
            longest: 5,
        },
        Alphabet {
            name: "word-parts",
            what: "every line of up to five of words, their parts, and what stands between them",
            around: [b"", b""],
            parts: &[b"=?utf-7?Q?", b"a", b"+", b"?", b"=", b"\r\n ", b"=?utf-7?Q?a?=", b"=41"],
            longest: 5,
        },
    ],
    cells: utf7::units,
    unwritable: utf7::unwritable,
    lone_cells: utf7::lone_cells,
    patterns: utf7::SOURCE.patterns,
};

/// A line of words, each of some units, however many; the last ones are as long as there is room.
fn whole(rng: &mut Rng, length: usize) -> Vec<u8> {
    let mut line = Vec::new();
    loop {
        let joint: &[u8] = if line.is_empty() { b"" } else { b"\r\n " };
        let room = length.saturating_sub(line.len() + joint.len());
        if room < SHORTEST {
            return line;
        }
        let most = if rng.one_in(2) { 4 } else { 40 };
        let count = rng.between(1, most);
        let mut words = subject::write(&utf7::units(rng, count)).expect("units");
        if words.len() > room {
            words = word_of(room.min(LONGEST));
        }
        line.extend(joint);
        line.extend(words);
    }
}

/// The characters of a word of one character, and those of the longest.
const SHORTEST: usize = 13;
const LONGEST: usize = 75;

/// A word of so many characters.
fn word_of(length: usize) -> Vec<u8> {
    subject::spell(&vec![0x61; length - SHORTEST + 1])
}

/// An accepted line of exactly this length, of words that are about as long as can be.
pub fn line_of(length: usize) -> Vec<u8> {
    let (all, each) = (length + 3, LONGEST + 3);
    let words = all.div_ceil(each);
    let ends: Vec<usize> = (0..=words).map(|index| all * index / words).collect();
    let words: Vec<Vec<u8>> = ends.windows(2).map(|end| word_of(end[1] - end[0] - 3)).collect();
    words.join(&b"\r\n "[..])
}

/// Texts whose every way of being shared among words is tried.
pub const SHARED: &[&[u32]] = &[
    &[0x61, 0x20, 0x3F, 0x2B, 0x2D, 0x5F, 0x3D, 0x0D, 0x0A, 0x41],
    &[0xA3, 0x61, 0x65E5, 0x672C, 0x2B, 0x8A9E, 0x2D, 0x0391, 0x7E, 0x00],
    &[0xD83D, 0xDE09, 0xD83D, 0x61, 0xDE09, 0xDBFF, 0xDFFF, 0xD800, 0xDC00, 0xFFFF, 0x2E],
];

/// Every line in which these units are shared among words, none of them empty; and those in which a word that ends with a
/// run leaves it open.
pub fn shared(units: &[u32]) -> impl Iterator<Item = Vec<u8>> + '_ {
    let ways = 1u32 << (units.len() - 1);
    (0..ways).flat_map(move |way| {
        // A bit for each place between two units: whether a word ends there.
        let ends = (1..units.len()).filter(move |end| way >> (end - 1) & 1 == 1).chain([units.len()]);
        let mut from = 0;
        let words: Vec<Vec<u8>> =
            ends.map(|end| subject::spell(&units[std::mem::replace(&mut from, end)..end])).collect();
        let open: Vec<Vec<u8>> = words.iter().map(|word| left_open(word)).collect();
        [words, open].map(|words| words.join(&b"\r\n "[..]))
    })
}

/// The word without the `-` of a run at its end, if it ends with one.
fn left_open(word: &[u8]) -> Vec<u8> {
    let text = &subject::spelled_in(word)[0];
    match word.strip_suffix(b"-?=") {
        Some(start) if !second::ends_outside(&text[..text.len() - 1]) => [start, b"?="].concat(),
        _ => word.to_vec(),
    }
}

/// Words with an `=` before every two bytes, and with every byte as a pair outside of runs, at their ends and in them.
pub fn pairs() -> impl Iterator<Item = Vec<u8>> {
    let two = (0..=65_535u16).map(|pair| [b"=?utf-7?Q?=", &pair.to_be_bytes()[..], b"?="].concat());
    let starts: [&[u8]; 5] = [b"", b"a", b"+", b"+AK", b"+AKM"];
    let ends: [&[u8]; 4] = [b"", b"-", b"M-", b"?"];
    let around = starts.into_iter().flat_map(move |start| ends.map(|end| (start, end)));
    let every = around.flat_map(|(start, end)| {
        (0..=255u8).map(move |byte| {
            let pair = format!("={byte:02X}").into_bytes();
            [b"=?utf-7?Q?", start, &pair[..], end, b"?=\r\n =?utf-7?Q?a?="].concat()
        })
    });
    two.chain(every)
}

/// Words of about 75 characters, with all that matters at their ends; by themselves, and with another behind them.
pub fn long_words() -> impl Iterator<Item = Vec<u8>> {
    let ends: [&[u8]; 14] =
        [b"", b"_", b"~", b"+", b"+-", b"+AKM", b"+AKM-", b"+AKN", b"=41", b"=80", b"=", b"=4", b"=4g", b"=41=42"];
    let behind: [&[u8]; 3] = [b"?=", b"?=\r\n =?utf-7?Q?a?=", b"??"];
    let words = (54..=66).flat_map(move |count| ends.map(|end| [&vec![b'a'; count][..], end].concat()));
    words.flat_map(move |text| behind.map(|behind| [b"=?utf-7?Q?", &text[..], behind].concat()))
}

/// Lists whose first word is about full where all that matters comes.
pub fn full_words() -> impl Iterator<Item = Vec<u32>> {
    let ends: [&[u32]; 12] = [
        &[0x20],
        &[0x3F],
        &[0x5F, 0x5F],
        &[0x2B, 0x2B],
        &[0x0D, 0x0A],
        &[0xA3],
        &[0x65E5, 0x672C, 0x8A9E],
        &[0xD83D, 0xDE09],
        &[0xD83D, 0xD83D, 0xDE09],
        &[0xDE09, 0xD83D],
        &[0xA3, 0xD83D, 0xDE09, 0xA3],
        &[0xD83D, 0x61, 0xDE09],
    ];
    let starts = (40..=66).flat_map(|count| [vec![0x61; count], vec![0x65E5; count / 2]]);
    let lists = starts.flat_map(move |start| ends.map(|end| [&start[..], end].concat()));
    let rests: [&[u32]; 4] = [&[], &[0x61], &[0xDE09], &[0x65E5; 30]];
    lists.flat_map(move |list| rests.map(|rest| [&list[..], rest].concat()))
}

#[cfg(test)]
mod tests {
    use super::*;

    #[test]
    fn lines_are_accepted_and_as_long_as_asked_for() {
        let mut rng = Rng::new(1, "whole lines");
        for length in (0..2_000).chain([65_535, 65_536]) {
            let line = whole(&mut rng, length);
            assert!(line.len() <= length && line.len() + SHORTEST + 3 > length, "{length}: {}", line.len());
            assert!(subject::read(&line).is_ok(), "{}", line.escape_ascii());
        }
        for length in [13, 75, 91, 92, 1_000, 1_001, 65_536] {
            assert_eq!(line_of(length).len(), length);
            assert_eq!(subject::read(&line_of(length)).map(|_| ()), Ok(()));
        }
    }

    #[test]
    fn however_units_are_shared_they_are_read() {
        for units in SHARED {
            assert_eq!(shared(units).count(), 1 << units.len());
            for line in shared(units) {
                assert_eq!(subject::read(&line).as_deref(), Ok(*units), "{}", line.escape_ascii());
            }
        }
    }
}
