//! What a page or a bench shows to the one who chooses the next call.

use crate::rng::Rng;
use crate::second::{Call, Elements, Kind};
use crate::texts::{self, Source};

pub struct View<'a> {
    /// The kind that cells and bytes are chosen for.
    pub kind: Kind,
    /// The bytes that are most often lent as arrived.
    pub arrived: &'a [u8],
    /// The text, if its length can be believed.
    pub text: &'a [u32],
    /// The cells of the text buffer.
    pub cells: usize,
    /// The words of the history that are free for the cells of a new record.
    pub words: usize,
}

impl View<'_> {
    fn source(&self) -> &'static Source {
        texts::of_kind(self.kind)
    }

    pub fn replace(&self, rng: &mut Rng) -> Call {
        let (place, count) = self.part(rng);
        Call::Replace { place, count, cells: self.added(rng, count) }
    }

    /// A place and a count: of a part of the text, of one that ends a little beyond it, or of one far beyond it.
    fn part(&self, rng: &mut Rng) -> (usize, usize) {
        let length = self.text.len();
        let place = rng.below(length + 1);
        match rng.below(16) {
            0..=7 => (place, rng.below(4).min(length - place)),
            8..=9 => (place, rng.below(length - place + 1)),
            10 => (0, length),
            11..=12 => (length, 0),
            13 => (place, length - place + rng.between(1, 3)),
            14 => (length + rng.between(1, 3), 0),
            _ => far(rng, place),
        }
    }

    /// Cells to add in place of so many: a few, or as many as the text buffer or the history just holds or just does
    /// not. Some lists have cells that are not writable.
    fn added(&self, rng: &mut Rng, removed: usize) -> Vec<u32> {
        let room = (self.cells - self.text.len()).saturating_add(removed);
        let words = self.words.saturating_sub(removed);
        let near = |rng: &mut Rng, number: usize| (number.min(self.cells) + rng.below(3)).saturating_sub(1);
        let count = match rng.below(12) {
            0..=6 => rng.below(4),
            7..=9 => rng.below(self.cells / 4 + 4),
            10 => near(rng, room),
            _ => near(rng, words),
        };
        let mut cells = (self.source().cells)(rng, count);
        if !cells.is_empty() && rng.one_in(8) {
            let index = rng.below(cells.len());
            cells[index] = (self.source().unwritable)(rng);
        }
        cells
    }

    /// A save, of which this is what it gives for the bytes that are lent to it where there is room enough.
    pub fn save(&self, rng: &mut Rng, saved: impl Fn(&[u8]) -> Elements<u8>) -> Call {
        let arrived = self.lent_bytes(rng);
        let needed = saved(&arrived).map_or(arrived.len(), |saved| saved.len());
        Call::Save { arrived, room: room(rng, needed) }
    }

    /// Bytes to lend as arrived: those that were opened, others that read as the text, or others still.
    pub fn lent_bytes(&self, rng: &mut Rng) -> Vec<u8> {
        let written = self.kind.write(self.text).unwrap_or_default();
        match rng.below(12) {
            0..=4 => self.arrived.to_vec(),
            5..=6 => written,
            7 => [self.source().needless, self.arrived].concat(),
            8 => [self.source().needless, &written].concat(),
            9..=10 => {
                let mut damaged = self.arrived.to_vec();
                self.source().damage(rng, &mut damaged);
                damaged
            }
            _ => self.source().text(rng, 12),
        }
    }
}

/// Room for so many bytes, or a little less or more.
pub fn room(rng: &mut Rng, needed: usize) -> usize {
    match rng.below(8) {
        0..=3 => needed,
        4 => needed.saturating_sub(1),
        5 => rng.below(needed + 1),
        _ => needed + rng.between(1, 20),
    }
}

/// A place and a count that lie far beyond any text; some of the sums are too large for the machine, and come to little
/// if they are cut off at 64 or at 32 bits.
fn far(rng: &mut Rng, near: usize) -> (usize, usize) {
    let small = rng.below(3);
    rng.pick(&[
        (usize::MAX, usize::MAX),
        (usize::MAX, 0),
        (0, usize::MAX),
        (near + 1, usize::MAX - small),
        (usize::MAX - small, 1 + small),
        (usize::MAX / 2 + 1, usize::MAX / 2 + 1),
        ((1 << 32) + near, 0),
        (near, 1 << 32),
        ((1 << 32) - 1, 1 + near),
    ])
}

/// A number to put in the place of this one: near it, one of these others, or far.
pub fn number(rng: &mut Rng, number: usize, others: &[usize]) -> usize {
    let little = rng.between(1, 5);
    match rng.below(7) {
        0 => 0,
        1 => number.wrapping_add(little),
        2 => number.saturating_sub(little),
        3..=5 => rng.pick(others),
        // Numbers that come to little, or to the old one, if they are cut off at 32 bits or added to.
        _ => rng.pick(&[usize::MAX, usize::MAX - little, 1 << 32, number.wrapping_add(1 << 32)]),
    }
}

/// The index of an element to change: most often one of those before the end of what a buffer holds, or one directly
/// after it.
pub fn changed_index(rng: &mut Rng, end: usize, length: usize) -> usize {
    let end = end.min(length);
    match rng.below(6) {
        0..=3 if end > 0 => rng.below(end),
        4 if end < length => end,
        _ => rng.below(length),
    }
}

/// Another word in the place of this one.
pub fn changed(rng: &mut Rng, word: u32) -> u32 {
    let other = match rng.below(9) {
        0 => 0,
        1 => 1,
        2 => word.wrapping_add(1),
        3 => word.wrapping_sub(1),
        4 => rng.below(60) as u32,
        5 => u32::MAX,
        6 => u32::MAX - rng.below(12) as u32,
        7 => 1 << 31,
        _ => rng.next() as u32,
    };
    if other == word {
        word ^ 1
    } else {
        other
    }
}
