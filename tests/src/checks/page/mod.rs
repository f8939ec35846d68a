//! The library's page: its calls compared with the papers, with the second program and with the ledger.

pub mod demand3;

use super::call::rooms;
use super::page_file as files;
use crate::calls::{limit, marks, opening, seeded, List, Move, Reading};
use crate::examples::page::{courses, judged, questions, Course, Judged, Question, Turn};
use crate::formats;
use crate::lent::{filled, Lent};
use crate::library::page as library;
use crate::library::page_file::KEEP;
use crate::library::squeeze::SQUEEZE;
use crate::parts::Part;
use crate::report::{Report, Statuses};
use crate::rng::Rng;
use crate::second::page::{self, Asked, Left, State};
use crate::second::page_file::{self, FileLeft};
use crate::second::{Answer, Call, Kind};
use crate::trial::{same, try_all, try_examples};

/// The examples, and a part for each kind of page.
pub fn parts(seed: u64) -> Vec<Part> {
    let of_kind = |kind: Kind| Part::new(format!("page-{}", kind.name()), move |report| check_kind(report, kind, seed));
    [Part::new("page-examples", check_examples)].into_iter().chain(Kind::ALL.map(of_kind)).collect()
}

fn check_examples(report: &mut Report) {
    report.check("page-worked", "the worked page of document 01 and one that is saved, step by step", |statuses| {
        try_examples(&courses(), |course| follow_course(course, statuses))
    });
    report.check("page-by-hand", "calls on pages made by hand, sound and not", |statuses| {
        try_examples(&judged(), |example| compare_judged(example, statuses))
    });
    report.check("page-questions", "the question on pages made by hand, sound and not", |statuses| {
        try_examples(&questions(), |Question { state, asked, .. }| compare_asked(state, asked, statuses))
    });
}

fn check_kind(report: &mut Report, kind: Kind, seed: u64) {
    let small = || seeded::opened(seed, kind, seeded::SMALL, 2_000);
    let large = || seeded::opened(seed, kind, seeded::LARGE, 150);
    let mut check = |name: &str, what: &str, lists: &mut dyn Iterator<Item = List>| {
        report.check(&format!("page-{}-{name}", kind.name()), what, |statuses| {
            try_all(lists, |list| follow(list, statuses))
        });
    };
    check("open", "texts opened with and without room", &mut openings(kind, seed));
    check("small", "seeded lists of calls in small buffers", &mut small());
    check("large", "seeded lists of calls in larger buffers", &mut large());
    check("changed", "seeded lists with changes that no call makes", &mut seeded::changed(seed, kind, 3_000));
    check("made", "seeded lists on pages made by hand", &mut seeded::made(seed, kind, 3_000));
    check("marks", "pages with every mark, at ends of records and elsewhere", &mut marks::lists(seed, kind, 100));
    check("limit", "lists with as much as can be lent, and with more", &mut limit::lists(kind));
    let what = "demand 3, by the ledger, after each call of the lists that open a page";
    report.check(&format!("page-{}-demand-3", kind.name()), what, |_| {
        try_all(small().chain(large()).chain([limit::full(kind)]), |list| demand3::follow(list, &BUILT))
    });
    expect_statuses(report, kind);
}

/// The examples of the kind's format and seeded texts, each opened in buffers of several lengths.
fn openings(kind: Kind, seed: u64) -> impl Iterator<Item = List> {
    let format = formats::of_kind(kind);
    let examples = format.readings.into_iter().flat_map(|group| group.examples).map(|example| example.input);
    let mut rng = Rng::new(seed, "texts to open");
    let texts = (0..1_500).map(move |_| {
        let length = rng.below(60);
        format.source.text(&mut rng, length)
    });
    examples.chain(texts).flat_map(move |arrived| {
        // No byte gives more than one cell.
        let needed = kind.read(&arrived).map_or(arrived.len(), |cells| cells.len());
        rooms(needed).into_iter().map(move |room| opening(kind, &arrived, room))
    })
}

/// The statuses that the calls on a page of a kind can give.
pub fn expect_statuses(report: &mut Report, kind: Kind) {
    report.expect_statuses(library::open_name(kind), &formats::of_kind(kind).statuses(&[0, 9, 16]));
    report.expect_statuses(library::REPLACE, &[0, 9, 10, 11, 12, 14, 16]);
    report.expect_statuses(library::UNDO, &[0, 13, 14, 16]);
    report.expect_statuses(library::REDO, &[0, 13, 14, 16]);
    report.expect_statuses(library::SAVE, &[0, 9, 10, 14, 15, 16]);
    report.expect_statuses(library::UNCHANGED, &[0, 14, 16]);
    report.expect_statuses(KEEP, &[0, 9, 14, 15, 16]);
    report.expect_statuses(SQUEEZE, &[0, 9, 11, 14, 16, 19]);
}

/// A program that keeps a page: how a call is made on it, how it is asked the question, and how it reads a file into
/// buffers.
pub struct Program<'a> {
    make: &'a dyn Fn(&State, &Call) -> Result<Left, String>,
    ask: &'a dyn Fn(&State) -> Result<Asked, String>,
    read: &'a dyn Fn(&[u8], &State, &[u8]) -> Result<FileLeft, String>,
}

/// The library.
pub const BUILT: Program = Program { make: &built, ask: &built_asked, read: &files::built };

/// What the second program leaves, lent this state.
fn second(state: &State, call: &Call) -> Left {
    page::left_of_all(state, call, &filled::<u8>(call.room()), &filled::<u32>(call.work()))
}

/// What the library leaves, lent this state; or what it did to the memory beside that.
pub fn built(state: &State, call: &Call) -> Result<Left, String> {
    let (mut text, mut history) = (Lent::new(&state.text), Lent::new(&state.history));
    let (mut output, mut work) = (Lent::new(&filled(call.room())), Lent::new(&filled(call.work())));
    let buffers = (text.contents(), history.contents());
    let (answer, page) = library::make(call, state.page, buffers.0, buffers.1, output.contents(), work.contents());
    let beside = |what: &'static str| move |difference| format!("beside the {what}, {difference}");
    let text = text.take_back().map_err(beside("text buffer"))?;
    let history = history.take_back().map_err(beside("history"))?;
    let output = output.take_back().map_err(beside("output"))?;
    let work = work.take_back().map_err(beside("work buffer"))?;
    Ok(Left { answer, state: State { page, text, history }, output, work })
}

/// What the library answers to the question, lent this state; or what it did to the memory, which it is to leave.
fn built_asked(state: &State) -> Result<Asked, String> {
    let (mut text, mut history) = (Lent::new(&state.text), Lent::new(&state.history));
    let (answer, unchanged) = library::ask(state.page, text.contents(), history.contents());
    let of = |what: &'static str| move |difference| format!("the question changed the {what}: {difference}");
    text.take_back().and_then(|found| same(&state.text, &found, 0)).map_err(of("text buffer"))?;
    history.take_back().and_then(|found| same(&state.history, &found, 0)).map_err(of("history"))?;
    match unchanged {
        0 | 1 => Ok(Asked { answer, unchanged: unchanged == 1 }),
        _ => Err(format!("the question says {unchanged}, which is neither yes nor no")),
    }
}

/// Makes the calls of a list, and compares what each leaves with what the second program leaves. After each, and after
/// each change, the question is asked.
pub fn follow(list: &List, statuses: &mut Statuses) -> Result<(), String> {
    let mut state = list.start.clone();
    let mut kept = Vec::new();
    compare_asked(&state, &page::ask(&state), statuses).map_err(|difference| format!("at first, {difference}"))?;
    for (number, item) in (1..).zip(&list.moves) {
        let after = |difference| format!("after {number}, {difference}");
        match item {
            Move::Change(change) => change.make(&mut state),
            Move::Call(call) => {
                let expected = second(&state, call);
                compare(&state, call, &expected, statuses).map_err(after)?;
                kept.extend(expected.file(call));
                state = expected.state;
            }
            Move::Read(reading) => {
                if let Some(read) = follow_reading(reading, &kept, statuses).map_err(after)? {
                    state = read;
                }
            }
        }
        compare_asked(&state, &page::ask(&state), statuses).map_err(after)?;
    }
    Ok(())
}

/// Reads one of the files that were kept, and compares what is left with what the second program leaves. Where it is
/// accepted, the list goes on with that.
fn follow_reading(reading: &Reading, kept: &[Vec<u8>], statuses: &mut Statuses) -> Result<Option<State>, String> {
    let Some(file) = reading.file(kept) else { return Ok(None) };
    let (buffers, arrived) = reading.buffers();
    let expected = page_file::left(file, &buffers, &arrived);
    files::compare_left(file, &buffers, &arrived, &expected, statuses)?;
    Ok((expected.answer.number == 0).then_some(expected.state))
}

/// Makes the calls of an example, and compares what each leaves with what the paper says.
pub fn follow_course(course: &Course, statuses: &mut Statuses) -> Result<(), String> {
    let mut state = &course.start;
    for Turn { call, left, unchanged } in &course.turns {
        let after = |difference| format!("after {call}, {difference}");
        compare(state, call, left, statuses).map_err(after)?;
        state = &left.state;
        let asked = Asked { answer: Answer { number: 0, place: 0 }, unchanged: *unchanged };
        compare_asked(state, &asked, statuses).map_err(after)?;
    }
    Ok(())
}

/// Compares the answer of a call with that of the example, and all that it leaves with what the second program leaves.
pub fn compare_judged(example: &Judged, statuses: &mut Statuses) -> Result<(), String> {
    compare_answered(&example.state, &example.call, example.answer, statuses)
}

pub fn compare_answered(state: &State, call: &Call, answer: Answer, statuses: &mut Statuses) -> Result<(), String> {
    compare(state, call, &Left { answer, ..second(state, call) }, statuses)
}

/// Makes a call on the library, and compares what it leaves with what it is to leave.
fn compare(state: &State, call: &Call, expected: &Left, statuses: &mut Statuses) -> Result<(), String> {
    let found = built(state, call)?;
    statuses.count(library::name(call), found.answer.number);
    if found.answer != expected.answer {
        return Err(format!("the answer is {} and not {}", found.answer, expected.answer));
    }
    if found.state.page != expected.state.page {
        return Err(format!("the page has {} and not {}", found.state.page, expected.state.page));
    }
    let within = |what: &'static str| move |difference| format!("in the {what}, {difference}");
    same(&expected.state.text, &found.state.text, 0).map_err(within("text buffer"))?;
    same(&expected.state.history, &found.state.history, 0).map_err(within("history"))?;
    same(&expected.output, &found.output, 0).map_err(within("output"))?;
    same(&expected.work, &found.work, 0).map_err(within("work buffer"))
}

/// Asks the library the question, and compares what it gives with what it is to give.
fn compare_asked(state: &State, expected: &Asked, statuses: &mut Statuses) -> Result<(), String> {
    let found = built_asked(state)?;
    statuses.count(library::UNCHANGED, found.answer.number);
    if found == *expected {
        return Ok(());
    }
    Err(format!("the question gives {found} and not {expected}"))
}
