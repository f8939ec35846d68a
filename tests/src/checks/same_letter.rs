//! Order 11 of document 02, "Are these the same letter?": the comparers of the library. The program `same_letter` is in same_program.rs.

use super::joining::Pair;
use super::same_program;
use crate::examples::compare::{examples, Example};
use crate::formats::{self, Format};
use crate::library::compare::{self as library, Comparer};
use crate::parts::Part;
use crate::report::{Report, Statuses};
use crate::rng::Rng;
use crate::second::compare::{compare, Comparison};
use crate::second::LIMIT;
use crate::texts::{lengths, Alphabet, Source};
use crate::trial::{try_all, Input};

/// A part for each format, and one for the program.
pub fn parts(seed: u64) -> Vec<Part> {
    let part = |format: fn() -> Format, comparer: &'static Comparer| {
        let name = format!("same-letter-{}", format().name);
        Part::new(name, move |report| of_format(report, &format(), comparer, seed))
    };
    vec![
        part(formats::utf7, &library::UTF7),
        part(formats::jp2, &library::JP2),
        part(formats::mailbox, &library::MAILBOX),
        Part::new("same-letter-program", move |report| same_program::run(report, seed)),
    ]
}

fn of_format(report: &mut Report, format: &Format, comparer: &Comparer, seed: u64) {
    let mut check = |name: &str, what: &str, pairs: &mut dyn Iterator<Item = Pair>| {
        let name = format!("same-letter-{}-{name}", format.name);
        report.check(&name, what, |statuses| as_second(format, comparer, pairs, statuses));
    };
    let source = format.source;
    check("examples", "examples", &mut worked(format.name));
    check("short", "every pair of texts of up to two parts", &mut short(source));
    check("seeded", "pairs of seeded texts, whole and damaged", &mut seeded(source, seed));
    check("behind", "pairs of texts with a fault put behind one or both", &mut with_faults(source, seed));
    check("near", "lists of cells that differ a little, in two spellings", &mut nearly_same(format, seed));
    check("limit", "pairs of texts at the limit and one off it", &mut at_limit(source));
    report.check(&format!("same-letter-{}-spelled", format.name), "the same cells by any two spellings", |statuses| {
        all_same(format, comparer, seed, statuses)
    });
    report.expect_statuses(comparer.name, &format.statuses(&[0, 16]));
}

/// That the library finds what the second program does.
fn as_second(
    format: &Format,
    comparer: &Comparer,
    pairs: &mut dyn Iterator<Item = Pair>,
    statuses: &mut Statuses,
) -> Result<usize, String> {
    try_all(pairs, |Pair { first, second }: &Pair| {
        let found = comparer.call(first, second)?;
        statuses.count(comparer.name, number(found));
        is(found, compare(format.steps, first, second))
    })
}

fn is(found: Comparison, expected: Comparison) -> Result<(), String> {
    match found == expected {
        true => Ok(()),
        false => Err(format!("it found: {found}; and not: {expected}")),
    }
}

pub fn number(found: Comparison) -> u32 {
    match found {
        Comparison::Same { .. } | Comparison::Part { .. } => 0,
        Comparison::Refused { answer, .. } => answer.number,
    }
}

fn worked(format: &str) -> impl Iterator<Item = Pair> {
    examples(format).into_iter().map(|Example { first, second, .. }| Pair { first, second })
}

/// Every pair of texts of a few parts.
fn short(source: &Source) -> impl Iterator<Item = Pair> {
    let alphabet = source.alphabets.iter().find(|alphabet| alphabet.name == "six-parts").expect("parts");
    let texts: Vec<Vec<u8>> = Alphabet { longest: 2, ..*alphabet }.texts().collect();
    let firsts = texts.clone();
    firsts
        .into_iter()
        .flat_map(move |first| texts.clone().into_iter().map(move |second| Pair { first: first.clone(), second }))
}

pub fn seeded(source: &'static Source, seed: u64) -> impl Iterator<Item = Pair> {
    let texts = move |purpose| source.texts(seed, purpose, 100_000, lengths::mostly_short);
    texts("first letters").zip(texts("second letters")).map(|(first, second)| Pair { first, second })
}

/// Two whole texts, a text and itself, or a text and a part of it, with a byte that no text may have behind one or
/// both.
pub fn with_faults(source: &'static Source, seed: u64) -> impl Iterator<Item = Pair> {
    let mut rng = Rng::new(seed, "faults behind the parting");
    (0..20_000).map(move |_| {
        let length = rng.below(60);
        let mut first = (source.whole)(&mut rng, length);
        let mut second = match rng.below(3) {
            0 => first.clone(),
            1 => first[..rng.between(0, first.len())].to_vec(),
            _ => (source.whole)(&mut rng, length),
        };
        let behind = rng.below(4);
        if behind & 1 != 0 {
            first.push(0x80);
        }
        if behind & 2 != 0 {
            second.push(0x80);
        }
        Pair { first, second }
    })
}

/// Lists of cells of which one was changed, taken out or put in, each in some spelling.
pub fn nearly_same<'a>(format: &'a Format, seed: u64) -> impl Iterator<Item = Pair> + 'a {
    let mut rng = Rng::new(seed, "letters that differ a little");
    (0..20_000).map(move |_| {
        let count = rng.between(1, 40);
        let cells = (format.source.cells)(&mut rng, count);
        let mut others = cells.clone();
        let place = rng.below(others.len());
        let cell = (format.source.cells)(&mut rng, 1)[0];
        match rng.below(4) {
            0 => others[place] = cell,
            1 => others.insert(place, cell),
            2 => others.truncate(place),
            _ => drop(others.remove(place)),
        }
        Pair { first: spelled(format, &mut rng, &cells), second: spelled(format, &mut rng, &others) }
    })
}

/// Long texts, each with itself, with the next, or that with it.
pub fn at_limit(source: &'static Source) -> impl Iterator<Item = Pair> {
    let texts: Vec<Vec<u8>> =
        [LIMIT - 1, LIMIT, LIMIT + 1].into_iter().flat_map(|length| source.texts_of_length(length)).collect();
    (0..texts.len()).flat_map(move |index| {
        let (this, next) = (&texts[index], &texts[(index + 1) % texts.len()]);
        let pair = |(first, second): (&Vec<u8>, &Vec<u8>)| Pair { first: first.clone(), second: second.clone() };
        [pair([(this, this), (this, next), (next, this)][index % 3])]
    })
}

/// Cells in some spelling, as gateways differ: in any of the writers' styles, all at once or in stretches (so in other
/// runs, and with designations of sets that are in force already), and with a `-` left out where it may be.
fn spelled(format: &Format, rng: &mut Rng, cells: &[u32]) -> Vec<u8> {
    let mut text = Vec::new();
    let mut rest = cells;
    while !rest.is_empty() {
        let count = if format.name == "mailbox" || rng.one_in(3) { rest.len() } else { rng.between(1, rest.len()) };
        let (stretch, after) = rest.split_at(count);
        let writer = &format.writers[rng.below(format.writers.len())];
        text.extend((writer.write)(stretch).expect("writable cells"));
        rest = after;
    }
    if format.name == "utf7" && rng.one_in(2) {
        text = without_hyphens(&text);
    }
    text
}

/// A UTF-7 text without the `-` of a run where what follows ends the run too.
fn without_hyphens(text: &[u8]) -> Vec<u8> {
    let mut kept = Vec::new();
    let mut letters = None;
    for (place, &byte) in text.iter().enumerate() {
        let is_letter = |byte: u8| byte.is_ascii_alphanumeric() || byte == b'+' || byte == b'/';
        match letters {
            None if byte == b'+' => letters = Some(0),
            None => {}
            Some(count) if is_letter(byte) => letters = Some(count + 1),
            Some(count) => {
                letters = None;
                let ends = text.get(place + 1).map_or(true, |&next| !is_letter(next) && next != b'-');
                if byte == b'-' && count > 0 && ends {
                    continue;
                }
            }
        }
        kept.push(byte);
    }
    kept
}

/// One list of cells in two spellings.
struct Spelled {
    cells: Vec<u32>,
    seed: u64,
}

impl Input for Spelled {
    fn length(&self) -> usize {
        self.cells.length()
    }

    fn without(&self, parts: std::ops::Range<usize>) -> Spelled {
        Spelled { cells: self.cells.without(parts), seed: self.seed }
    }

    fn show(&self) -> String {
        format!("{} spelled with {}", self.cells.show(), self.seed)
    }
}

/// That the same cells by two spellings are the same letter; the count is that of the pairs whose bytes differ, or for
/// names, which have one spelling, of all.
fn all_same(format: &Format, comparer: &Comparer, seed: u64, statuses: &mut Statuses) -> Result<usize, String> {
    let mut rng = Rng::new(seed, "two spellings");
    let lists = (0..20_000).map(|_| {
        let count = rng.below(60);
        Spelled { cells: (format.source.cells)(&mut rng, count), seed: rng.next() }
    });
    let mut differing = 0;
    try_all(lists.collect::<Vec<_>>(), |Spelled { cells, seed }: &Spelled| {
        let mut rng = Rng::new(*seed, "spelling");
        let (first, second) = (spelled(format, &mut rng, cells), spelled(format, &mut rng, cells));
        differing += usize::from(first != second || format.name == "mailbox");
        let found = comparer.call(&first, &second)?;
        statuses.count(comparer.name, number(found));
        is(found, Comparison::Same { count: cells.len() })
    })?;
    Ok(differing)
}

#[cfg(test)]
mod tests {
    use super::*;

    #[test]
    fn hyphens_are_left_out_where_they_may_be() {
        assert_eq!(without_hyphens(b"+AKM-"), b"+AKM");
        assert_eq!(without_hyphens(b"+AKM-.+-b"), b"+AKM.+-b");
        assert_eq!(without_hyphens(b"+AKM-a+AKM--"), b"+AKM-a+AKM--");
    }

    #[test]
    fn spellings_read_as_their_cells() {
        for format in formats::all() {
            let mut rng = Rng::new(1, "spellings");
            for _ in 0..2_000 {
                let count = rng.below(30);
                let cells = (format.source.cells)(&mut rng, count);
                let text = spelled(&format, &mut rng, &cells);
                assert_eq!((format.read)(&text), Ok(cells), "{}", text.escape_ascii());
            }
        }
    }
}
