//! Seeded texts and lists of cells to try the readers and writers on.

pub mod jp2;
pub mod lengths;
pub mod mailbox;
pub mod subject;
pub mod utf7;

use crate::rng::Rng;
use crate::second::Kind;
use lengths::{Length, NEAR_LIMIT, OVER_LIMIT};

/// How texts and lists of a format are made.
pub struct Source {
    /// Bytes of every kind that the rules tell apart.
    pub telling_bytes: &'static [u8],
    /// Parts of texts of every kind that the rules tell apart.
    pub telling_parts: &'static [&'static [u8]],
    /// The byte that opens what is more than one byte.
    pub opener: u8,
    /// Bytes that change nothing where they stand before a text, if there are any.
    pub needless: &'static [u8],
    /// Makes a text that is accepted. Its length is the one asked for, or a little less.
    pub whole: fn(&mut Rng, usize) -> Vec<u8>,
    /// Texts of any length: with no fault, and with a fault of each kind, early or late.
    pub frames: &'static [Frame],
    /// Parts of which every short text is tried.
    pub alphabets: &'static [Alphabet],
    /// Makes so many writable cells.
    pub cells: fn(&mut Rng, usize) -> Vec<u32>,
    /// Makes a cell that is not writable.
    pub unwritable: fn(&mut Rng) -> u32,
    /// Cells that are tried each by itself.
    pub lone_cells: fn() -> Vec<u32>,
    /// Lists of writable cells that, over and over, make a long list.
    pub patterns: &'static [&'static [u32]],
}

/// Makes a text or list of this length, or near it.
type Make<T> = fn(&Source, &mut Rng, usize) -> Vec<T>;

/// A text of any length: its start, a filling over and over, and its end.
pub struct Frame(pub &'static [u8], pub &'static [u8], pub &'static [u8]);

/// Parts of texts, and of how many of them every text is tried.
pub struct Alphabet {
    pub name: &'static str,
    pub what: &'static str,
    /// What each text starts with, and what it ends with.
    pub around: [&'static [u8]; 2],
    pub parts: &'static [&'static [u8]],
    pub longest: u32,
}

/// How the texts and lists of a kind of page are made.
pub fn of_kind(kind: Kind) -> &'static Source {
    match kind {
        Kind::Utf7Header | Kind::Utf7Body => &utf7::SOURCE,
        Kind::Jp2 => &jp2::SOURCE,
    }
}

/// Every text of no byte, then every one of one byte, then every one of two.
pub fn up_to_two_bytes() -> impl Iterator<Item = Vec<u8>> {
    let one = (0..=255).map(|byte| vec![byte]);
    let two = (0..=65_535u16).map(|pair| pair.to_be_bytes().to_vec());
    [vec![]].into_iter().chain(one).chain(two)
}

impl Alphabet {
    /// Every text of so many parts, from none to the longest.
    pub fn texts(&self) -> impl Iterator<Item = Vec<u8>> + '_ {
        (0..=self.longest).flat_map(move |count| {
            let size = self.parts.len();
            let part = move |number: usize, place: u32| self.parts[number / size.pow(place) % size];
            let [start, end] = self.around;
            (0..size.pow(count)).map(move |number| {
                let parts = (0..count).flat_map(|place| part(number, place));
                start.iter().chain(parts).chain(end).copied().collect()
            })
        })
    }
}

impl Source {
    /// So many texts of such lengths: whole, damaged, and of anything that the rules tell apart.
    pub fn texts(&self, seed: u64, purpose: &str, count: usize, length: Length) -> impl Iterator<Item = Vec<u8>> + '_ {
        let mut rng = Rng::new(seed, purpose);
        (0..count).map(move |_| {
            let length = length(&mut rng);
            self.text(&mut rng, length)
        })
    }

    /// So many whole texts near the limit and as many over it, and as many damaged ones of both.
    pub fn long_texts(&self, seed: u64, count: usize) -> impl Iterator<Item = Vec<u8>> + '_ {
        let whole: Make<u8> = |source, rng, length| (source.whole)(rng, length);
        self.long(seed, "long texts", count, [whole, Source::damaged])
    }

    /// A text of this length, or near it.
    pub fn text(&self, rng: &mut Rng, length: usize) -> Vec<u8> {
        match rng.below(9) {
            0..=2 => (self.whole)(rng, length),
            3..=5 => self.damaged(rng, length),
            6 => self.of_few_bytes(rng, length),
            7 => (0..length).map(|_| rng.pick(self.telling_bytes)).collect(),
            _ => (0..length / 3).flat_map(|_| rng.pick(self.telling_parts)).copied().take(length).collect(),
        }
    }

    /// A whole text with one to three changes.
    fn damaged(&self, rng: &mut Rng, length: usize) -> Vec<u8> {
        let mut text = (self.whole)(rng, length);
        for _ in 0..rng.between(1, 3) {
            self.damage(rng, &mut text);
        }
        text
    }

    /// Changes a byte of a text, puts something in, takes something out, or cuts the text short.
    pub fn damage(&self, rng: &mut Rng, text: &mut Vec<u8>) {
        let place = self.damage_place(rng, text);
        if place == text.len() {
            text.push(rng.pick(self.telling_bytes));
            return;
        }
        let here = place..place;
        let following = place..(place + rng.between(1, 3)).min(text.len());
        match rng.below(8) {
            0 => text[place] ^= 1 << rng.below(8),
            1 => text[place] = rng.pick(self.telling_bytes),
            2 => text[place] = rng.between(128, 255) as u8,
            3 => text.insert(place, rng.between(128, 255) as u8),
            4 => text.insert(place, rng.pick(self.telling_bytes)),
            5 => drop(text.splice(here, rng.pick(self.telling_parts).iter().copied())),
            6 => text.truncate(place),
            _ => drop(text.drain(following)),
        }
    }

    /// Any place in a text, or one near an opener.
    fn damage_place(&self, rng: &mut Rng, text: &[u8]) -> usize {
        let place = rng.below(text.len() + 1);
        if rng.one_in(2) {
            return place;
        }
        match text[place..].iter().position(|&byte| byte == self.opener) {
            Some(distance) => (place + distance + rng.below(6)).min(text.len()),
            None => place,
        }
    }

    /// A text of two to five bytes that matter, over and over.
    fn of_few_bytes(&self, rng: &mut Rng, length: usize) -> Vec<u8> {
        let few: Vec<u8> = (0..rng.between(2, 5)).map(|_| rng.pick(self.telling_bytes)).collect();
        (0..length).map(|_| rng.pick(&few)).collect()
    }

    /// A text of exactly this length from each frame.
    pub fn texts_of_length(&self, length: usize) -> impl Iterator<Item = Vec<u8>> + '_ {
        self.frames.iter().map(move |Frame(start, filling, end)| {
            let filled = length - start.len() - end.len();
            start.iter().chain(filling.iter().cycle().take(filled)).chain(*end).copied().collect()
        })
    }

    /// So many lists, most of them short and most writable.
    pub fn lists(&self, seed: u64, purpose: &str, count: usize) -> impl Iterator<Item = Vec<u32>> + '_ {
        let mut rng = Rng::new(seed, purpose);
        (0..count).map(move |_| {
            let length = lengths::mostly_short(&mut rng);
            self.list(&mut rng, length)
        })
    }

    /// A list of this length; one in four is not writable.
    pub fn list(&self, rng: &mut Rng, length: usize) -> Vec<u32> {
        if rng.one_in(4) {
            return self.spoiled(rng, length);
        }
        (self.cells)(rng, length)
    }

    /// So many writable lists near the limit and as many over it, and as many of both that are not writable.
    pub fn long_lists(&self, seed: u64, count: usize) -> impl Iterator<Item = Vec<u32>> + '_ {
        let writable: Make<u32> = |source, rng, length| (source.cells)(rng, length);
        self.long(seed, "long lists", count, [writable, Source::spoiled])
    }

    /// So many of each sort near the limit, and as many over it.
    fn long<T: 'static>(
        &self,
        seed: u64,
        purpose: &str,
        count: usize,
        sorts: [Make<T>; 2],
    ) -> impl Iterator<Item = Vec<T>> + '_ {
        let mut rng = Rng::new(seed, purpose);
        let each = [NEAR_LIMIT, OVER_LIMIT].map(|lengths| sorts.map(|make| (lengths.clone(), make))).concat();
        (0..count).flat_map(move |_| each.clone()).map(move |(lengths, make)| loop {
            let length = lengths::among(&mut rng, &lengths);
            let made = make(self, &mut rng, length);
            if lengths.contains(&made.len()) {
                return made;
            }
        })
    }

    /// A list with one or two cells that are not writable, if it has any.
    fn spoiled(&self, rng: &mut Rng, length: usize) -> Vec<u32> {
        let mut cells = (self.cells)(rng, length);
        for _ in 0..rng.between(1, 2) {
            if length > 0 {
                cells[rng.below(length)] = (self.unwritable)(rng);
            }
        }
        cells
    }

    /// Lists of exactly this length: one from each pattern, and that with a cell at its end that is not writable.
    pub fn lists_of_length(&self, length: usize) -> impl Iterator<Item = Vec<u32>> + '_ {
        self.patterns.iter().flat_map(move |pattern| {
            let list: Vec<u32> = pattern.iter().copied().cycle().take(length).collect();
            let mut unwritable = list.clone();
            unwritable[length - 1] = u32::MAX;
            [list, unwritable]
        })
    }
}

#[cfg(test)]
mod tests {
    use super::*;
    use crate::formats;
    use crate::second::{LIMIT, LISTER_LIMIT};

    #[test]
    fn whole_texts_are_accepted() {
        let mut rng = Rng::new(1, "whole texts");
        for format in formats::all() {
            for _ in 0..2_000 {
                let length = lengths::for_listers(&mut rng);
                let text = (format.source.whole)(&mut rng, length);
                assert!(text.len() <= length);
                assert!((format.read)(&text).is_ok(), "{}", text.escape_ascii());
            }
        }
    }

    #[test]
    fn needless_bytes_change_nothing() {
        for format in formats::all() {
            for text in format.source.texts(1, "texts", 2_000, lengths::mostly_short) {
                let longer = [format.source.needless, &text].concat();
                assert_eq!((format.read)(&longer).ok(), (format.read)(&text).ok(), "{}", text.escape_ascii());
            }
        }
    }

    #[test]
    fn texts_and_lists_have_the_lengths_asked_for() {
        for source in [&utf7::SOURCE, &jp2::SOURCE, &mailbox::SOURCE] {
            let texts: Vec<Vec<u8>> = source.texts(1, "lengths", 3_000, lengths::for_listers).collect();
            for length in [0, 1, 2, LISTER_LIMIT, LISTER_LIMIT + 1] {
                assert!(texts.iter().any(|text| text.len() == length), "none of {length} bytes");
            }
            assert!(source.texts_of_length(40).all(|text| text.len() == 40));
            let over = |length: usize| length > LIMIT;
            let texts: Vec<bool> = source.long_texts(1, 2).map(|text| over(text.len())).collect();
            let lists: Vec<bool> = source.long_lists(1, 2).map(|list| over(list.len())).collect();
            assert_eq!(texts, [[false, false, true, true]; 2].concat());
            assert_eq!(lists, texts);
        }
    }

    #[test]
    fn every_short_text_of_an_alphabet_is_made() {
        let alphabet = |around| Alphabet { name: "", what: "", around, parts: &[b"a", b"bc"], longest: 2 };
        let texts: Vec<Vec<u8>> = alphabet([b"", b""]).texts().collect();
        let expected: [&[u8]; 7] = [b"", b"a", b"bc", b"aa", b"bca", b"abc", b"bcbc"];
        assert_eq!(texts, expected);
        let around: Vec<Vec<u8>> = alphabet([b"&", b"-!"]).texts().collect();
        assert_eq!(around, expected.map(|text| [b"&", text, b"-!"].concat()));
    }

    #[test]
    fn cells_are_writable_or_not_as_asked_for() {
        let mut rng = Rng::new(1, "cells");
        for format in formats::all() {
            for count in 0..200 {
                let cells = (format.source.cells)(&mut rng, count);
                assert_eq!(cells.len(), count);
                for writer in &format.writers {
                    assert!((writer.write)(&cells).is_ok());
                    assert!((writer.write)(&[(format.source.unwritable)(&mut rng)]).is_err());
                }
            }
            assert_eq!(format.source.lists_of_length(20).count(), 2 * format.source.patterns.len());
        }
    }
}
