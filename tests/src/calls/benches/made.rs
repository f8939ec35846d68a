//! Benches made by hand, that no list of calls need lead to: sound ones may hold anything in their texts and records.

use super::draft::Draft;
use crate::calls::made::{any_number, contents};
use crate::rng::Rng;
use crate::second::benches::{Bench, Benches, State};
use crate::second::page::mark_of;
use crate::second::Kind;
use crate::texts;

/// A bench in the making.
struct Making {
    kind: Kind,
    /// Whether its cells are writable.
    writable: bool,
    /// The cells of its text buffer, and the greatest length that its records reach: that, or a little more.
    cells: usize,
    greatest: usize,
    /// The lengths at the start, and at the end of each of its records.
    lengths: Vec<usize>,
}

/// A draft that starts with benches made by hand. Most are sound.
pub fn draft(rng: &mut Rng) -> Draft {
    let words = rng.between(0, 90);
    let mut both = [0, 1].map(|_| Making::new(rng));
    let mut history = Vec::new();
    for _ in 0..rng.below(16) {
        let bench = rng.below(2);
        both[bench].add_record(rng, bench, &mut history, words);
    }
    let used = history.len();
    history.resize(words, 0);
    let [(first, text), (second, other_text)] = [0, 1].map(|bench| both[bench].bench(rng));
    let kinds = both.map(|making| making.kind);
    let written = [(kinds[0], first.length, &text), (kinds[1], second.length, &other_text)];
    let arrived = written.map(|(kind, length, text)| kind.write(&text[..length]).unwrap_or_default());
    let benches = Benches { each: [first, second], used };
    Draft::new(State { benches, texts: [text, other_text], history }, kinds, arrived)
}

impl Making {
    fn new(rng: &mut Rng) -> Making {
        let cells = rng.between(0, 40);
        let greatest = cells + rng.pick(&[0, 0, 0, 0, 0, 0, 0, 0, 0, 1, 2]);
        let lengths = vec![rng.below(greatest + 1)];
        Making { kind: rng.pick(&Kind::ALL), writable: rng.one_in(2), cells, greatest, lengths }
    }

    /// Adds a record, if it fits so many words. A few lie one cell too far, which may be beyond the text, and a few are
    /// of no bench.
    fn add_record(&mut self, rng: &mut Rng, bench: usize, history: &mut Vec<u32>, words: usize) {
        let length = self.lengths[self.lengths.len() - 1];
        let place = rng.below(length + 1);
        let removed = rng.below(5).min(length - place);
        let added = rng.below(5).min(self.greatest - (length - removed));
        if history.len() + 4 + removed + added > words {
            return;
        }
        let slip = usize::from(rng.one_in(120));
        let bench = if rng.one_in(150) { 2 + rng.below(3) } else { bench };
        history.extend([bench, place + slip, removed, added].map(|number| number as u32));
        history.extend(contents(rng, self.kind, self.writable, removed + added));
        self.lengths.push(length - removed + added);
    }

    /// The bench, with any number of its steps standing, and its text buffer.
    fn bench(&self, rng: &mut Rng) -> (Bench, Vec<u32>) {
        let (standing, opening) = (rng.below(self.lengths.len()), self.lengths[0]);
        let length = self.lengths[standing].min(self.cells);
        let mut text = contents(rng, self.kind, self.writable, length);
        text.resize(self.cells, 0);
        (Bench { kind: self.kind.number(), opening, length, standing, saved: self.mark(rng) }, text)
    }

    /// A mark: none, or at most the number of records; a few are more.
    fn mark(&self, rng: &mut Rng) -> Option<usize> {
        match rng.below(16) {
            0..=3 => None,
            4 => Some(rng.below(self.lengths.len() + 2)),
            _ => Some(rng.below(self.lengths.len())),
        }
    }
}

/// A draft that starts with benches and buffers of any numbers.
pub fn any(rng: &mut Rng) -> Draft {
    let words = rng.below(300);
    let kinds = [0, 1].map(|_| rng.pick(&Kind::ALL));
    let cells = [0, 1].map(|_| rng.below(300));
    let each = [0, 1].map(|bench| {
        let [opening, length, standing] = [cells[bench], cells[bench], 9].map(|near| any_number(rng, near) as usize);
        let saved = mark_of(any_number(rng, 9) as usize);
        Bench { kind: kinds[bench].number(), opening, length, standing, saved }
    });
    let benches = Benches { each, used: any_number(rng, words) as usize };
    let texts = cells.map(|cells| (0..cells).map(|_| any_number(rng, 65_536) as u32).collect());
    let history = (0..words).map(|_| any_number(rng, words) as u32).collect();
    let arrived = [0, 1].map(|bench| texts::of_kind(kinds[bench]).text(rng, cells[bench]));
    Draft::new(State { benches, texts, history }, kinds, arrived)
}
