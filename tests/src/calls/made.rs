//! Pages made by hand, that no list of calls need lead to: a sound page may hold anything in its text and its records.

use super::draft::Draft;
use crate::rng::Rng;
use crate::second::page::{mark_of, Page, State};
use crate::second::Kind;
use crate::texts;

/// A page in the making.
struct Making {
    kind: Kind,
    /// Whether its cells are writable.
    writable: bool,
    /// The greatest length that its records reach: that of its text buffer, or a little more.
    greatest: usize,
    /// The most cells that a record removes.
    removed: usize,
    history: Vec<u32>,
    /// The words and the length at the start, and at the end of each record.
    ends: Vec<(usize, usize)>,
}

/// A draft that starts with a page made by hand. Most are sound.
pub fn draft(rng: &mut Rng, kind: Kind) -> Draft {
    let (cells, words) = (rng.between(0, 40), rng.between(0, 60));
    let shape = Shape { cells, opening: cells, words, records: rng.below(12), removed: 4, late: false };
    page(rng, kind, shape)
}

/// A draft that starts with a page made by hand on a short text, with many steps, most of which stand.
pub fn stepped(rng: &mut Rng, kind: Kind) -> Draft {
    let (cells, words) = (rng.between(1, 14), rng.between(20, 140));
    let (records, removed) = (rng.between(2, 16), rng.pick(&[1, 1, 4]));
    page(rng, kind, Shape { cells, opening: cells.min(9), words, records, removed, late: true })
}

/// What a page made by hand has: so many cells in its text buffer, an opening length of at most so many, so many words
/// in its history, as many records as fit of so many, each of which removes at most so many cells; and whether most of
/// them stand.
struct Shape {
    cells: usize,
    opening: usize,
    words: usize,
    records: usize,
    removed: usize,
    late: bool,
}

fn page(rng: &mut Rng, kind: Kind, shape: Shape) -> Draft {
    let Shape { cells, words, removed, .. } = shape;
    let greatest = cells + rng.pick(&[0, 0, 0, 0, 0, 1, 2]);
    let opening = rng.below(shape.opening + greatest - cells + 1);
    let ends = vec![(0, opening)];
    let mut making = Making { kind, writable: rng.one_in(2), greatest, removed, history: Vec::new(), ends };
    for _ in 0..shape.records {
        making.add_record(rng, words);
    }
    let (done, length) = making.end(rng, shape.late);
    let used = making.history.len();
    let mut text = making.contents(rng, length);
    let arrived = kind.write(&text).unwrap_or_default();
    let saved = making.mark(rng);
    text.resize(cells, 0);
    making.history.resize(words, 0);
    let page = Page { kind: kind.number(), opening, length, used, done, saved };
    Draft::new(State { page, text, history: making.history }, kind, arrived)
}

/// A draft that starts with a page and buffers of any numbers.
pub fn any(rng: &mut Rng, kind: Kind) -> Draft {
    let (cells, words) = (rng.below(300), rng.below(300));
    let [opening, length, used, done] = [cells, cells, words, words].map(|near| any_number(rng, near) as usize);
    let saved = mark_of(any_number(rng, words) as usize);
    let page = Page { kind: kind.number(), opening, length, used, done, saved };
    let text = (0..cells).map(|_| any_number(rng, 65_536) as u32).collect();
    let history = (0..words).map(|_| any_number(rng, words) as u32).collect();
    let arrived = texts::of_kind(kind).text(rng, cells);
    Draft::new(State { page, text, history }, kind, arrived)
}

/// A number that is often small, or not much over this one.
pub(super) fn any_number(rng: &mut Rng, near: usize) -> u64 {
    match rng.below(6) {
        0 => 0,
        1..=2 => rng.below(4) as u64,
        3 => rng.below(near + 2) as u64,
        4 => u64::MAX - rng.below(4) as u64,
        _ => rng.next(),
    }
}

impl Making {
    /// One of the ends; a late one, or any.
    fn end(&self, rng: &mut Rng, late: bool) -> (usize, usize) {
        let first = if late { self.ends.len() / 2 } else { 0 };
        rng.pick(&self.ends[first..])
    }

    /// Adds a record, if it fits so many words. A few lie one cell too far, which may be beyond the text.
    fn add_record(&mut self, rng: &mut Rng, words: usize) {
        let (_, length) = self.ends[self.ends.len() - 1];
        let place = rng.below(length + 1);
        let removed = rng.below(self.removed + 1).min(length - place);
        let added = rng.below(5).min(self.greatest - (length - removed));
        if self.history.len() + 3 + removed + added > words {
            return;
        }
        let slip = usize::from(rng.one_in(60));
        self.history.extend([place + slip, removed, added].map(|number| number as u32));
        let contents = self.contents(rng, removed + added);
        self.history.extend(contents);
        self.ends.push((self.history.len(), length - removed + added));
    }

    /// A mark: none, or at 0 or the end of a record, undone or not; a few are at any word.
    fn mark(&self, rng: &mut Rng) -> Option<usize> {
        match rng.below(16) {
            0..=3 => None,
            4 => Some(rng.below(self.history.len() + 2)),
            _ => Some(rng.pick(&self.ends).0),
        }
    }

    fn contents(&self, rng: &mut Rng, count: usize) -> Vec<u32> {
        contents(rng, self.kind, self.writable, count)
    }
}

/// So many cells; where they need not be writable, some are not.
pub(super) fn contents(rng: &mut Rng, kind: Kind, writable: bool, count: usize) -> Vec<u32> {
    let source = texts::of_kind(kind);
    let mut cells = (source.cells)(rng, count);
    for cell in cells.iter_mut().filter(|_| !writable) {
        if rng.one_in(6) {
            *cell = (source.unwritable)(rng);
        }
    }
    cells
}
