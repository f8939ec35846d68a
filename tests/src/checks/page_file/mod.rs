//! Page files: keeping and reading them, compared with the papers, with the second program and with the ledger.

use super::page::{self, demand3};
use crate::calls::files::{self, Filed};
use crate::calls::{seeded, List};
use crate::examples::page_file::{keepings, readings};
use crate::lent::Lent;
use crate::library::page_file as library;
use crate::parts::Part;
use crate::report::{Report, Statuses};
use crate::second::page::State;
use crate::second::page_file::{self, FileLeft};
use crate::second::{Answer, Call, Kind};
use crate::trial::{same, try_all, try_examples};

/// The examples, and two parts for each kind of page: its files, and its lists of calls, keepings and readings.
pub fn parts(seed: u64) -> Vec<Part> {
    let of_kind = |kind: Kind| {
        let name = format!("page-file-{}", kind.name());
        [
            Part::new(name.clone(), move |report| check_files(report, kind, seed)),
            Part::new(format!("{name}-lists"), move |report| check_lists(report, kind, seed)),
        ]
    };
    [Part::new("page-file-examples", check_examples)]
        .into_iter()
        .chain(Kind::ALL.into_iter().flat_map(of_kind))
        .collect()
}

fn check_examples(report: &mut Report) {
    report.check("page-file-keepings", "the file of document 01's worked page, and keepings by hand", |statuses| {
        try_examples(&keepings(), |example| {
            let call = Call::Keep { arrived: example.arrived.clone(), room: example.room };
            page::compare_answered(&example.state, &call, example.answer, statuses)
        })
    });
    report.check("page-file-readings", "that file read, and files that are not quite it", |statuses| {
        try_examples(&readings(), |example| {
            let filed = Filed { file: example.file.clone(), rooms: example.rooms };
            compare(&filed, Some(example.answer), statuses)
        })
    });
    let every_byte: Vec<u8> = (0..=255).collect();
    let edited = &files::small(Kind::Jp2)[2];
    report.check("page-file-every-byte", "a file with each byte changed to every other", |statuses| {
        try_all(files::bytes_changed(edited, &every_byte), |filed| compare(filed, None, statuses))
    });
    report.expect_statuses(library::KEEP, &[0, 9, 14, 15, 16]);
    report.expect_statuses(library::READ, &[0, 9, 14, 15, 16, 18]);
}

fn check_files(report: &mut Report, kind: Kind, seed: u64) {
    let small = files::small(kind);
    let mut check = |name: &str, what: &str, files: &mut dyn Iterator<Item = Filed>| {
        report.check(&format!("page-file-{}-{name}", kind.name()), what, |statuses| {
            try_all(files, |filed| compare(filed, None, statuses))
        });
    };
    let changed = small.iter().flat_map(|filed| files::bytes_changed(filed, files::TELLING));
    check("bytes-changed", "files with each byte changed to each telling one", &mut { changed });
    let moved = small.iter().flat_map(files::bytes_moved);
    check("bytes-moved", "files with bytes left out, doubled and added, at each place", &mut { moved });
    check("beginnings", "every beginning of files", &mut small.iter().flat_map(files::beginnings));
    let lines = small.iter().flat_map(files::lines_moved).chain(files::lines_mixed(&small));
    check("lines", "lines left out, doubled, swapped, and of other files", &mut { lines });
    let in_form_2 = files::small_in_form_2(kind);
    // In the last of these form 2 is not due, and where they fail is found slowly.
    let due = &in_form_2[..2];
    let values = small.iter().chain(due).flat_map(files::values_changed);
    check("values", "other values in each line", &mut { values });
    let of_form_2 = due.iter().flat_map(|filed| files::bytes_changed(filed, files::TELLING).step_by(5));
    let of_form_2 = of_form_2.chain(in_form_2.iter().flat_map(files::beginnings));
    check("form-2", "small files in form 2, with bytes changed and cut off", &mut { of_form_2 });
    let what = "each number at the bounds of the forms and beside them, in both forms";
    check("forms", what, &mut files::forms(kind));
    check("rooms", "smaller and larger buffers, for files with and without faults", &mut files::in_rooms(kind));
    check("limit", "files with as much as can be kept, and with more", &mut files::at_limit(kind));
    check("seeded", "seeded files of pages that are sound and not", &mut files::seeded(seed, kind, 6_000));
    report.expect_statuses(library::READ, &[0, 9, 14, 15, 16, 18]);
}

fn check_lists(report: &mut Report, kind: Kind, seed: u64) {
    let lists = || seeded::kept(seed, kind, seeded::SMALL, 2_000).chain(seeded::kept(seed, kind, seeded::LARGE, 150));
    let name = format!("page-file-{}", kind.name());
    let mut check = |check: &str, what: &str, lists: &mut dyn Iterator<Item = List>| {
        report.check(&format!("{name}-{check}"), what, |statuses| try_all(lists, |list| page::follow(list, statuses)));
    };
    check("lists", "seeded lists of calls, keepings and readings of files kept before", &mut lists());
    let both_sides = || files::on_both_sides(kind).into_iter();
    check("both-forms", "pages on both sides of 65,536, kept, read and gone on with", &mut both_sides());
    if kind == files::MOST_TRIED {
        let with_words = &mut files::with_words(kind).into_iter();
        check("words", "histories on both sides of 65,536 words, kept and read, with many marks", with_words);
    }
    let what = "demand 3, by the ledger, after each call, keeping and reading of these lists";
    report.check(&format!("{name}-demand-3"), what, |_| {
        try_all(lists().chain(both_sides()), |list| demand3::follow(list, &page::BUILT))
    });
    // An opened page is sound.
    report.expect_statuses(library::KEEP, &[0, 9, 15]);
}

/// What the library leaves of a reading that is lent these buffers; or what it did to the memory beside them.
pub fn built(file: &[u8], buffers: &State, arrived: &[u8]) -> Result<FileLeft, String> {
    let (mut text, mut history) = (Lent::new(&buffers.text), Lent::new(&buffers.history));
    let mut arrived = Lent::new(arrived);
    let (answer, page) = library::read(file, arrived.contents(), text.contents(), history.contents());
    let beside = |what: &'static str| move |difference| format!("beside the {what}, {difference}");
    let text = text.take_back().map_err(beside("text buffer"))?;
    let history = history.take_back().map_err(beside("history"))?;
    let arrived = arrived.take_back().map_err(beside("buffer of arrived bytes"))?;
    Ok(FileLeft { answer, state: State { page, text, history }, arrived })
}

/// Reads a file into its buffers, and compares what is left with what the second program leaves, with this answer if
/// there is one.
fn compare(filed: &Filed, answer: Option<Answer>, statuses: &mut Statuses) -> Result<(), String> {
    let (buffers, arrived) = filed.buffers();
    let expected = page_file::left(&filed.file, &buffers, &arrived);
    let expected = FileLeft { answer: answer.unwrap_or(expected.answer), ..expected };
    compare_left(&filed.file, &buffers, &arrived, &expected, statuses)
}

/// Reads a file on the library, and compares what is left with what is to be left.
pub fn compare_left(
    file: &[u8],
    buffers: &State,
    arrived: &[u8],
    expected: &FileLeft,
    statuses: &mut Statuses,
) -> Result<(), String> {
    let found = built(file, buffers, arrived)?;
    statuses.count(library::READ, found.answer.number);
    if found.answer != expected.answer {
        return Err(format!("the answer is {} and not {}", found.answer, expected.answer));
    }
    if found.state.page != expected.state.page {
        return Err(format!("the page has {} and not {}", found.state.page, expected.state.page));
    }
    let within = |what: &'static str| move |difference| format!("in the {what}, {difference}");
    same(&expected.arrived, &found.arrived, 0).map_err(within("buffer of arrived bytes"))?;
    same(&expected.state.text, &found.state.text, 0).map_err(within("text buffer"))?;
    same(&expected.state.history, &found.state.history, 0).map_err(within("history"))?;
    if found.answer.number == 0 {
        kept_again(file, &found)?;
    }
    Ok(())
}

/// "One page with its arrived bytes has one file": what was read, kept again, is that very file.
fn kept_again(file: &[u8], left: &FileLeft) -> Result<(), String> {
    let call = Call::Keep { arrived: left.arrived[..left.answer.place].to_vec(), room: file.len() };
    let kept = page::built(&left.state, &call)?;
    if kept.answer.number != 0 || kept.answer.place != file.len() || kept.output != file {
        return Err(format!("kept again it gives {} and \"{}\"", kept.answer, kept.output.escape_ascii()));
    }
    Ok(())
}
