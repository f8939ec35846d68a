//! Readers, writers and the tally.

use std::fmt::UpperHex;

use super::{name, on_both_sides, WHAT};
use crate::formats::Format;
use crate::guarded::Guarded;
use crate::lent::{filled, Element};
use crate::library::compare::Comparer;
use crate::library::{self, Function, JP2_TALLY};
use crate::report::Report;
use crate::rng::Rng;
use crate::second::LIMIT;
use crate::settings::Settings;
use crate::texts::subject::SOURCE as SUBJECT;
use crate::texts::{lengths, Source};
use crate::trial::try_all;

/// How often each sort of text or list at the limit is tried.
const LONG: usize = 3;

pub fn read(report: &mut Report, format: &Format, function: &Function<u8, u32>, settings: Settings) {
    run(report, function, texts(format.source, settings));
    report.expect_statuses(function.name, &format.statuses(&[0, 9, 16]));
}

pub fn write(report: &mut Report, format: &Format, function: &Function<u32, u8>, settings: Settings) {
    run(report, function, lists(format.source, settings));
    report.expect_statuses(function.name, &[0, 9, 10, 16]);
}

/// Subject lines, which are no format.
pub fn subject(report: &mut Report, settings: Settings) {
    run(report, &library::SUBJECT_READ, texts(&SUBJECT, settings));
    report.expect_statuses(library::SUBJECT_READ.name, &[0, 1, 2, 3, 4, 9, 16, 21]);
    run(report, &library::SUBJECT_WRITE, lists(&SUBJECT, settings));
    report.expect_statuses(library::SUBJECT_WRITE.name, &[0, 9, 10, 16]);
}

/// Compares each text with itself and with its first half, in both orders.
pub fn compare(report: &mut Report, format: &Format, comparer: &Comparer, settings: Settings) {
    let (mut first, mut second) = (Guarded::new(), Guarded::new());
    report.check(&name(comparer.name), WHAT, |_| {
        try_all(texts(format.source, settings), |text: &Vec<u8>| {
            let half = &text[..text.len() / 2];
            for (one, two) in [(&text[..], &text[..]), (text, half), (half, text)] {
                let compared =
                    on_both_sides(|side| comparer.call(first.lend_to_read(one, side), second.lend_to_read(two, side)));
                compared.and_then(|compared| compared)?;
            }
            Ok(())
        })
    });
}

pub fn tally(report: &mut Report, format: &Format, settings: Settings) {
    let (mut input, mut output) = (Guarded::new(), Guarded::new());
    report.check(&name(JP2_TALLY), WHAT, |statuses| {
        try_all(lists(format.source, settings), |list: &Vec<u32>| {
            let (answer, _) = on_both_sides(|side| {
                let counts = output.lend(&filled::<u32>(9), side);
                let nine = counts.first_chunk_mut().expect("nine counts");
                let answer = library::jp2_tally(input.lend_to_read(list, side), nine);
                (answer, counts.to_vec())
            })?;
            statuses.count(JP2_TALLY, answer.number);
            Ok(())
        })
    });
    report.expect_statuses(JP2_TALLY, &[0, 10, 16]);
}

/// Calls a reader or writer with no room, and with about the room that it then asks for.
fn run<I: Copy + UpperHex, O: Element>(
    report: &mut Report,
    function: &Function<I, O>,
    inputs: impl Iterator<Item = Vec<I>>,
) {
    let (mut input, mut output) = (Guarded::new(), Guarded::new());
    report.check(&name(function.name), WHAT, |statuses| {
        try_all(inputs, |list: &Vec<I>| {
            let mut call = |room| {
                let (answer, _) = on_both_sides(|side| {
                    let output = output.lend(&filled::<O>(room), side);
                    let answer = function.call(input.lend_to_read(list, side), output);
                    (answer, output.to_vec())
                })?;
                statuses.count(function.name, answer.number);
                Ok::<_, String>(answer)
            };
            let answer = call(0)?;
            let needed = if answer.number == 9 { answer.place } else { list.len() };
            for room in [needed.saturating_sub(1), needed, needed + 3] {
                call(room)?;
            }
            Ok(())
        })
    });
}

/// Seeded texts and any bytes, most of them short; and texts at the limit and over it.
fn texts(source: &Source, settings: Settings) -> impl Iterator<Item = Vec<u8>> + '_ {
    let mut rng = Rng::new(settings.seed, "texts in guarded memory");
    let short = (0..settings.rounds).map(move |_| {
        let length = lengths::up_to_hundreds(&mut rng);
        match rng.below(4) {
            0 => (0..length).map(|_| rng.next() as u8).collect(),
            _ => source.text(&mut rng, length),
        }
    });
    short.chain(source.texts_of_length(LIMIT)).chain(source.long_texts(settings.seed, LONG))
}

/// Seeded lists and any cells, most of them short; and lists at the limit and over it.
fn lists(source: &Source, settings: Settings) -> impl Iterator<Item = Vec<u32>> + '_ {
    let mut rng = Rng::new(settings.seed, "lists in guarded memory");
    let short = (0..settings.rounds).map(move |_| {
        let length = lengths::up_to_hundreds(&mut rng);
        match rng.below(8) {
            0 => (0..length).map(|_| rng.next() as u32).collect(),
            _ => source.list(&mut rng, length),
        }
    });
    short.chain(source.lists_of_length(LIMIT)).chain(source.long_lists(settings.seed, LONG))
}
