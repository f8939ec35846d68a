//! Where cells begin, compared with the byte offsets that ICU's converters give with each unit, on texts that both
//! accept.
//!
//! ICU's offset of a unit is the byte at which it begins: in a run the letter that holds its first bit; the sign of
//! `+-` and `&-`; the first byte of a pair. So it is where ours begins, but for ESC N and its byte, where ICU counts
//! the byte alone: there ours begins two bytes before. ICU does not say where a unit ends.

mod peer;

use std::collections::BTreeMap;

use crate::fault;
use crate::formats::Format;
use crate::library::steps::{Cursor, Stepper};
use crate::report::Report;
use crate::rng::Rng;
use crate::second::{Complete, LIMIT};
use crate::texts::lengths;
use crate::trial::show;
use peer::{Peer, Unit};

/// What ICU has of a format.
#[derive(Clone, Copy)]
pub struct Icu {
    pub converter: &'static str,
    /// How many of the bytes of a cell stand before the one that ICU has it from.
    pub before: fn(u32) -> usize,
    /// Of every cell that is no unit, ICU is asked by itself which unit it is.
    pub cells_are_units: bool,
}

pub const UTF7: Icu = Icu { converter: "UTF-7", before: |_| 0, cells_are_units: true };
pub const MAILBOX: Icu = Icu { converter: "IMAP-mailbox-name", before: |_| 0, cells_are_units: true };
pub const JP2: Icu = Icu {
    converter: "ISO-2022-JP-2",
    before: |cell| if [100, 126].contains(&(cell / 65_536)) { 2 } else { 0 },
    cells_are_units: false,
};

pub fn run<C: Cursor>(report: &mut Report, format: &Format, stepper: &Stepper<C>, icu: Icu, seed: u64) {
    let name = format!("{}-icu", format.name);
    let peer = match Peer::build(icu.converter) {
        None => return report.note(format!("left out {name}: ICU's headers (Debian's libicu-dev) are not at hand")),
        Some(Err(problem)) => return report.check(&name, "the program that asks ICU is built", |_| Err(problem)),
        Some(Ok(peer)) => peer,
    };
    let mut comparison = Comparison { stepper, icu, peer, known: BTreeMap::new() };
    let mut check = |of: &str, what: &str, least: usize, texts: Vec<Vec<u8>>, comparison: &mut Comparison<C>| {
        let name = format!("{name}-{of}");
        fault::in_check(&name);
        let agreed = comparison.compare(&texts).and_then(|agreed| agreed.at_least(least));
        let what = match &agreed {
            Ok(Agreed { texts: both, .. }) => {
                format!("{what}, in the {both} of {} texts that both accept; cells", texts.len())
            }
            Err(_) => what.to_string(),
        };
        report.check(&name, &what, |_| agreed.map(|agreed| agreed.cells));
    };
    let lone: Vec<Vec<u8>> = (format.source.lone_cells)().iter().filter_map(|&cell| written(format, &[cell])).collect();
    check("lone-cells", "where each writable cell by itself begins", 20_000, lone, &mut comparison);
    let lists = lists(format, seed, &comparison.known);
    check("lists", "where the cells of seeded lists, written, begin", 100_000, lists, &mut comparison);
    let texts = format.source.texts(seed, "texts for ICU", 20_000, lengths::mostly_short);
    let texts = texts.chain(format.source.texts_of_length(LIMIT).take(3)).collect();
    check("texts", "where the cells of seeded texts, whole and damaged, begin", 10_000, texts, &mut comparison);
}

/// Cells as the second program writes them, if it does.
fn written(format: &Format, cells: &[u32]) -> Option<Vec<u8>> {
    (format.writers.last()?.write)(cells).ok()
}

/// Seeded lists of cells that ICU knows, as texts.
fn lists(format: &Format, seed: u64, known: &BTreeMap<u32, u16>) -> Vec<Vec<u8>> {
    let mut rng = Rng::new(seed, "lists for ICU");
    let list = |_| {
        let length = lengths::mostly_short(&mut rng);
        let mut cells = (format.source.cells)(&mut rng, length);
        cells.retain(|cell| known.contains_key(cell));
        written(format, &cells)
    };
    (0..5_000).filter_map(list).filter(|text| text.len() <= LIMIT).collect()
}

struct Comparison<'a, C> {
    stepper: &'a Stepper<C>,
    icu: Icu,
    peer: Peer,
    /// The unit of each cell that ICU, asked by itself, reads to one.
    known: BTreeMap<u32, u16>,
}

/// How many texts and cells were compared.
#[derive(Default)]
struct Agreed {
    texts: usize,
    cells: usize,
}

impl Agreed {
    fn at_least(self, cells: usize) -> Result<Agreed, String> {
        if self.cells < cells {
            return Err(format!("only {} cells could be compared", self.cells));
        }
        Ok(self)
    }
}

impl<C: Cursor> Comparison<'_, C> {
    /// Compares on each of these texts, if both accept it and all its cells are known.
    fn compare(&mut self, texts: &[Vec<u8>]) -> Result<Agreed, String> {
        let mut agreed = Agreed::default();
        for (text, units) in texts.iter().zip(self.peer.read(texts)?) {
            let (Some(units), Some(cells)) = (units, self.ours(text)) else { continue };
            if let ([complete], [unit]) = (&cells[..], &units[..]) {
                self.known.entry(complete.cell).or_insert(unit.unit);
            }
            let Some(expected) = self.icu.expected(&cells, &self.known) else { continue };
            if expected != units {
                return Err(format!("on {}: the cells are {cells:X?}, and ICU has {units:X?}", show(text)));
            }
            agreed.texts += 1;
            agreed.cells += cells.len();
        }
        Ok(agreed)
    }

    /// The cells of an accepted text.
    fn ours(&self, text: &[u8]) -> Option<Vec<Complete>> {
        let mut cells = Vec::new();
        let mut step = (self.stepper.step)(text, (self.stepper.start)());
        while step.given == 1 {
            cells.push(Complete { cell: step.cell, begin: step.begin, end: step.end });
            step = (self.stepper.step)(text, step.next);
        }
        (step.answer.number == 0).then_some(cells)
    }
}

impl Icu {
    /// What ICU gives for these cells, if all of them are known.
    fn expected(&self, cells: &[Complete], known: &BTreeMap<u32, u16>) -> Option<Vec<Unit>> {
        let unit = |cell: u32| if self.cells_are_units { Some(cell as u16) } else { known.get(&cell).copied() };
        let expect = |complete: &Complete| {
            let offset = complete.begin + (self.before)(complete.cell);
            unit(complete.cell).map(|unit| Unit { unit, offset })
        };
        cells.iter().map(expect).collect()
    }
}

#[cfg(test)]
mod tests {
    use super::*;
    use crate::formats;

    /// What ICU 72 gives, as it was looked up once.
    #[test]
    fn offsets_are_where_cells_begin() {
        let expected = |format: Format, icu: Icu, text: &[u8], known: &[(u32, u16)]| {
            let found = icu.expected(&(format.steps)(text).cells, &known.iter().copied().collect());
            found.map(|units| units.iter().map(|unit| (unit.unit, unit.offset)).collect::<Vec<_>>())
        };
        let units = expected(formats::utf7(), UTF7, b"A+ImIDkQ.+-b", &[]);
        let icu = vec![(0x41, 0), (0x2262, 2), (0x391, 4), (0x2E, 8), (0x2B, 9), (0x62, 11)];
        assert_eq!(units, Some(icu));
        let units = expected(formats::mailbox(), MAILBOX, b"a&-&ZeVnLIqe-", &[]);
        assert_eq!(units, Some(vec![(0x61, 0), (0x26, 1), (0x65E5, 4), (0x672C, 6), (0x8A9E, 9)]));
        let known = [(0x0057_2422, 0x3042), (0x0064_0041, 0xC1)];
        let text = b"\x1B$B$\"\x1B.A\x1BNA$\"\x1B(B";
        assert_eq!(expected(formats::jp2(), JP2, text, &known), Some(vec![(0x3042, 3), (0xC1, 10), (0x3042, 11)]));
        assert_eq!(expected(formats::jp2(), JP2, text, &known[..1]), None);
    }
}
