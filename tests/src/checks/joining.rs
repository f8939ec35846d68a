//! Order 9 of document 02: "two accepted JP-2 texts joined are accepted and read as the first's cells and then the
//! second's. For UTF-7 it holds when the first ends outside a run". It is proved; here it is asked of the built library,
//! and the second program says only of which pairs it holds. Names are read as both too, but where a run would stand
//! directly after a run.

use std::ops::Range;

use super::call::{given, lend, rooms};
use crate::formats::Format;
use crate::library::Function;
use crate::report::Report;
use crate::second::{outcome, Answer, LIMIT};
use crate::texts::{lengths, Alphabet, Source};
use crate::trial::{quote, try_all, without, Input};

/// Two texts that are joined, or compared.
pub struct Pair {
    pub first: Vec<u8>,
    pub second: Vec<u8>,
}

impl Input for Pair {
    fn length(&self) -> usize {
        self.first.len() + self.second.len()
    }

    fn without(&self, parts: Range<usize>) -> Pair {
        let end = self.first.len();
        let Range { start, end: last } = parts;
        Pair {
            first: without(&self.first, start.min(end)..last.min(end)),
            second: without(&self.second, start.max(end) - end..last.max(end) - end),
        }
    }

    fn show(&self) -> String {
        format!("{} and {}", quote(&self.first), quote(&self.second))
    }
}

pub fn run(report: &mut Report, format: &Format, function: &Function<u8, u32>, seed: u64) {
    let read = |text: &[u8], output: &mut [u32]| function.call(text, output);
    let mut check = |name: &str, what: &str, pairs: &mut dyn Iterator<Item = Pair>| {
        report.check(&format!("{}-joined-{name}", format.name), what, |_| as_both(format, read, pairs));
    };
    check("short", "every pair of accepted texts of up to three parts", &mut short(format.source, read));
    check("seeded", "pairs of accepted seeded texts", &mut seeded(format.source, seed, read));
    let what = "pairs of accepted texts, at the limit and one off it when joined";
    check("limit", what, &mut at_limit(format.source, read));
}

/// Every pair of accepted texts of a few parts.
fn short(source: &Source, read: impl Fn(&[u8], &mut [u32]) -> Answer) -> impl Iterator<Item = Pair> {
    let alphabet = source.alphabets.iter().find(|alphabet| alphabet.name == "six-parts").expect("parts");
    let short = Alphabet { longest: 3, ..*alphabet };
    let texts: Vec<Vec<u8>> = short.texts().filter(|text| cells(&read, text).is_some()).collect();
    let firsts = texts.clone();
    firsts
        .into_iter()
        .flat_map(move |first| texts.clone().into_iter().map(move |second| Pair { first: first.clone(), second }))
}

/// Accepted texts of two sequences, one by one.
fn seeded<'a>(
    source: &'static Source,
    seed: u64,
    read: impl Fn(&[u8], &mut [u32]) -> Answer + Copy + 'a,
) -> impl Iterator<Item = Pair> + 'a {
    let accepted = move |purpose| {
        let texts = source.texts(seed, purpose, 200_000, lengths::mostly_short);
        texts.filter(move |text| cells(&read, text).is_some())
    };
    let pairs = accepted("first texts").zip(accepted("second texts"));
    pairs.map(|(first, second)| Pair { first, second }).take(50_000)
}

/// Accepted long texts, of which the first have one length; each of the others is joined to two of these.
fn at_limit<'a>(
    source: &'static Source,
    read: impl Fn(&[u8], &mut [u32]) -> Answer + Copy + 'a,
) -> impl Iterator<Item = Pair> + 'a {
    const FIRST: usize = 40_000;
    let accepted = move |length| source.texts_of_length(length).filter(move |text| cells(&read, text).is_some());
    let firsts: Vec<Vec<u8>> = accepted(FIRST).collect();
    let seconds = [LIMIT - 1, LIMIT, LIMIT + 1].into_iter().flat_map(move |length| accepted(length - FIRST));
    seconds.enumerate().flat_map(move |(index, second)| {
        let pair = |first: &Vec<u8>| Pair { first: first.clone(), second: second.clone() };
        firsts.iter().cycle().skip(index).take(2).map(pair).collect::<Vec<Pair>>()
    })
}

/// The cells of a text, if it is accepted.
fn cells(read: &impl Fn(&[u8], &mut [u32]) -> Answer, text: &[u8]) -> Option<Vec<u32>> {
    given(text.len(), |output| read(text, output))
}

/// That two accepted texts joined are read as both, in output of several lengths; the count is that of the pairs of
/// which that holds. Of others it is compared with the second program what the joined text is read as.
fn as_both(
    format: &Format,
    read: impl Fn(&[u8], &mut [u32]) -> Answer,
    pairs: impl Iterator<Item = Pair>,
) -> Result<usize, String> {
    let mut joined = 0;
    try_all(pairs, |Pair { first, second }: &Pair| {
        let (Some(of_first), Some(of_second)) = (cells(&read, first), cells(&read, second)) else { return Ok(()) };
        let text = [&first[..], second].concat();
        let holds = (format.joins)(first, second);
        joined += usize::from(holds);
        let expected = match holds {
            true if text.len() > LIMIT => Err(Answer { number: 16, place: LIMIT }),
            true => Ok([of_first, of_second].concat()),
            false => (format.read)(&text),
        };
        rooms(expected.as_ref().map_or(text.len(), Vec::len)).into_iter().try_for_each(|room| {
            lend(room, |output| read(&text, output), |before| outcome(&expected, before)).map(drop)
        })
    })?;
    Ok(joined)
}

#[cfg(test)]
mod tests {
    use super::*;
    use crate::formats;
    use crate::second::Elements;

    /// The second program's reader as a call, with a change to what it gives.
    fn second(
        format: &Format,
        change: impl Fn(&[u8], Elements<u32>) -> Elements<u32>,
    ) -> impl Fn(&[u8], &mut [u32]) -> Answer {
        let read = format.read;
        move |text, output| {
            let left = outcome(&change(text, read(text)), output);
            output.copy_from_slice(&left.output);
            left.answer
        }
    }

    fn some_pairs(format: &Format) -> impl Iterator<Item = Pair> {
        short(format.source, second(format, |_, elements| elements))
    }

    #[test]
    fn the_second_program_reads_as_both() {
        for format in formats::all() {
            let read = second(&format, |_, elements| elements);
            assert!(as_both(&format, &read, some_pairs(&format)).is_ok_and(|count| count > 1_000), "{}", format.name);
        }
    }

    #[test]
    fn a_cell_lost_at_the_join_is_noticed() {
        for format in formats::all() {
            // Of long texts only, so that the two are read well by themselves.
            let read = second(&format, |text, elements| match (text.len() > 6, elements) {
                (true, Ok(cells)) => Ok(cells.into_iter().skip(1).collect()),
                (_, elements) => elements,
            });
            assert!(as_both(&format, read, some_pairs(&format)).is_err(), "{}", format.name);
        }
    }

    #[test]
    fn without_its_premise_it_fails() {
        for format in [formats::utf7(), formats::mailbox()] {
            let always = Format { joins: |_, _| true, ..format };
            let read = second(&always, |_, elements| elements);
            assert!(as_both(&always, read, some_pairs(&always)).is_err(), "{}", always.name);
        }
    }

    #[test]
    fn a_pair_is_made_smaller_on_either_side() {
        let pair = Pair { first: b"abc".to_vec(), second: b"de".to_vec() };
        let smaller = pair.without(2..4);
        assert_eq!((smaller.first, smaller.second), (b"ab".to_vec(), b"e".to_vec()));
        assert_eq!(pair.length(), 5);
    }
}
