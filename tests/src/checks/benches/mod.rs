//! Both benches of the library: their calls compared with the papers, with the second program and with the ledgers.

mod demand3;
mod two_runs;

use crate::calls::benches::{harm, limit, pairs, seeded, List, Move, Sort};
use crate::examples::benches::{course, judged, questions, Turned};
use crate::formats;
use crate::lent::{filled, Lent};
use crate::library::benches as library;
use crate::parts::Part;
use crate::report::{Report, Statuses};
use crate::second::benches::{self, Call, Left, State};
use crate::second::page::Asked;
use crate::second::Kind;
use crate::trial::{same, try_all, try_examples};

pub fn parts(seed: u64) -> Vec<Part> {
    vec![
        Part::new("benches-examples", check_examples),
        Part::new("benches-lists", move |report| check_lists(report, seed)),
        Part::new("benches-harm", move |report| check_harm(report, seed)),
        Part::new("benches-demand-3", move |report| check_demand3(report, seed)),
        Part::new("benches-two-runs", move |report| check_two_runs(report, seed)),
    ]
}

fn check_examples(report: &mut Report) {
    report.check("benches-course", "calls of both benches by hand, step by step", |statuses| {
        let (mut state, turns) = course();
        for Turned { call, left, unchanged } in &turns {
            let after = |difference| format!("after {call}, {difference}");
            compare(&state, call, left, statuses).map_err(after)?;
            state = left.state.clone();
            let asked = [0, 1].map(|bench| ask(&state, bench).map(|asked| asked.unchanged));
            if asked != unchanged.map(Ok::<bool, String>) {
                return Err(after(format!("the questions give {asked:?}")));
            }
        }
        Ok(turns.len())
    });
    report.check("benches-by-hand", "calls of benches made by hand, sound and not", |statuses| {
        try_examples(&judged(), |example| {
            let expected = second(&example.state, &example.call);
            compare(&example.state, &example.call, &Left { answer: example.answer, ..expected }, statuses)
        })
    });
    report.check("benches-questions", "the question on benches made by hand, sound and not", |statuses| {
        try_examples(&questions(), |example| compare_asked(&example.state, example.bench, &example.asked, statuses))
    });
}

fn check_lists(report: &mut Report, seed: u64) {
    let what = "seeded lists of calls of both benches";
    check(report, "small", what, &mut seeded::opened(seed, seeded::SMALL, 20_000));
    check(report, "open", "opens by themselves", &mut seeded::alone(seed, Sort::Open, 6_000));
    check(report, "changed", "seeded lists with changes that no call makes", &mut seeded::changed(seed, 6_000));
    check(report, "made", "seeded lists on benches made by hand", &mut seeded::made(seed, 6_000));
    check(report, "limit", "lists with as much as can be lent, and with more", &mut limit::lists());
    expect_statuses(report);
}

fn check_harm(report: &mut Report, seed: u64) {
    check(report, "harm", "each number, word and cell past the ends changed", &mut harm::lists(seed, 24));
    check(report, "any", "the question on benches of any numbers", &mut seeded::states(seed, 6_000));
    check(report, "short", "seeded lists with many steps", &mut seeded::opened(seed, seeded::SHORT, 2_000));
    check(report, "large", "seeded lists in larger buffers", &mut seeded::opened(seed, seeded::LARGE, 500));
}

fn check(report: &mut Report, name: &str, what: &str, lists: &mut dyn Iterator<Item = List>) {
    report.check(&format!("benches-{name}"), what, |statuses| try_all(lists, |list| follow(list, statuses)));
}

fn check_demand3(report: &mut Report, seed: u64) {
    let lists = |size, count| seeded::opened(seed, size, count);
    let all = lists(seeded::SMALL, 4_000).chain(lists(seeded::SHORT, 300)).chain(lists(seeded::LARGE, 60));
    let what = "demand 3 for each bench, by its ledger, after each call";
    report
        .check("benches-demand-3", what, |_| try_all(all.chain([limit::full()]), |list| demand3::follow(list, &BUILT)));
}

fn check_two_runs(report: &mut Report, seed: u64) {
    let mut met = two_runs::Met::default();
    let what = "pairs of runs that agree for one bench";
    report.check("benches-two-runs", what, |_| {
        try_all(pairs::pairs(seed, 10_000), |pair| two_runs::follow(pair, &BUILT, &mut met))
    });
    report.note(format!("benches-two-runs: {met}"));
}

/// The statuses that the calls of both benches can give.
pub fn expect_statuses(report: &mut Report) {
    let faults = Kind::ALL.into_iter().flat_map(|kind| formats::of_kind(kind).faults).copied();
    let of_open: Vec<u32> = faults.chain([0, 9, 14, 16]).collect();
    report.expect_statuses(library::OPEN, &of_open);
    report.expect_statuses(library::REPLACE, &[0, 9, 10, 11, 12, 14, 16, 20]);
    report.expect_statuses(library::UNDO, &[0, 13, 14, 16, 20]);
    report.expect_statuses(library::REDO, &[0, 13, 14, 16, 20]);
    report.expect_statuses(library::SAVE, &[0, 9, 10, 14, 15, 16, 20]);
    report.expect_statuses(library::UNCHANGED, &[0, 14, 16, 20]);
}

/// A program that keeps both benches: how a call is made of them, and how it is asked the question of one.
pub struct Program<'a> {
    make: &'a dyn Fn(&State, &Call) -> Result<Left, String>,
    ask: &'a dyn Fn(&State, usize) -> Result<Asked, String>,
}

/// The library.
const BUILT: Program = Program { make: &built, ask: &ask };

/// What the second program leaves, lent this state.
fn second(state: &State, call: &Call) -> Left {
    benches::left(state, call, &filled(call.room()))
}

/// What the library leaves, lent this state; or what it did to the memory beside that.
fn built(state: &State, call: &Call) -> Result<Left, String> {
    let [mut first, mut second] = [0, 1].map(|bench| Lent::new(&state.texts[bench]));
    let (mut history, mut output) = (Lent::new(&state.history), Lent::new(&filled(call.room())));
    let texts = [first.contents(), second.contents()];
    let (answer, benches) = library::make(call, state.benches, texts, history.contents(), output.contents());
    let beside = |what: &'static str| move |difference| format!("beside the {what}, {difference}");
    let texts = [
        first.take_back().map_err(beside("text buffer of bench 0"))?,
        second.take_back().map_err(beside("text buffer of bench 1"))?,
    ];
    let history = history.take_back().map_err(beside("history"))?;
    let output = output.take_back().map_err(beside("output"))?;
    Ok(Left { answer, state: State { benches, texts, history }, output })
}

/// What the library answers to the question of a bench, lent this state; or what it did to the memory, which it is to
/// leave.
fn ask(state: &State, bench: usize) -> Result<Asked, String> {
    let [mut first, mut second] = [0, 1].map(|bench| Lent::new(&state.texts[bench]));
    let mut history = Lent::new(&state.history);
    let texts: [&[u32]; 2] = [first.contents(), second.contents()];
    let (answer, unchanged) = library::ask(state.benches, bench, texts, history.contents());
    let of = |what: &'static str| move |difference| format!("the question changed the {what}: {difference}");
    let is_left = |lent: Lent<u32>, before: &[u32]| lent.take_back().and_then(|found| same(before, &found, 0));
    is_left(first, &state.texts[0]).map_err(of("text buffer of bench 0"))?;
    is_left(second, &state.texts[1]).map_err(of("text buffer of bench 1"))?;
    is_left(history, &state.history).map_err(of("history"))?;
    match unchanged {
        0 | 1 => Ok(Asked { answer, unchanged: unchanged == 1 }),
        _ => Err(format!("the question says {unchanged}, which is neither yes nor no")),
    }
}

/// Makes the calls of a list, and compares what each leaves with what the second program leaves. At first, after each
/// call and after each change, the question is asked of both benches, and of the number after theirs.
fn follow(list: &List, statuses: &mut Statuses) -> Result<(), String> {
    let mut state = list.start.clone();
    compare_questions(&state, statuses).map_err(|difference| format!("at first, {difference}"))?;
    for (number, item) in (1..).zip(&list.moves) {
        let after = |difference| format!("after {number}, {difference}");
        match item {
            Move::Change(change) => change.make(&mut state),
            Move::Call(call) => {
                let expected = second(&state, call);
                compare(&state, call, &expected, statuses).map_err(after)?;
                state = expected.state;
            }
        }
        compare_questions(&state, statuses).map_err(after)?;
    }
    Ok(())
}

fn compare_questions(state: &State, statuses: &mut Statuses) -> Result<(), String> {
    (0..3).try_for_each(|bench| compare_asked(state, bench, &benches::ask(state, bench), statuses))
}

/// Makes a call on the library, and compares what it leaves with what it is to leave.
fn compare(state: &State, call: &Call, expected: &Left, statuses: &mut Statuses) -> Result<(), String> {
    let found = built(state, call)?;
    statuses.count(library::name(call), found.answer.number);
    if found.answer != expected.answer {
        return Err(format!("the answer is {} and not {}", found.answer, expected.answer));
    }
    if found.state.benches != expected.state.benches {
        return Err(format!("there is {} and not {}", found.state.benches, expected.state.benches));
    }
    let within = |what: &'static str| move |difference| format!("in the {what}, {difference}");
    same(&expected.state.texts[0], &found.state.texts[0], 0).map_err(within("text buffer of bench 0"))?;
    same(&expected.state.texts[1], &found.state.texts[1], 0).map_err(within("text buffer of bench 1"))?;
    same(&expected.state.history, &found.state.history, 0).map_err(within("history"))?;
    same(&expected.output, &found.output, 0).map_err(within("output"))
}

/// Asks the library the question, and compares what it gives with what it is to give.
fn compare_asked(state: &State, bench: usize, expected: &Asked, statuses: &mut Statuses) -> Result<(), String> {
    let found = ask(state, bench)?;
    statuses.count(library::UNCHANGED, found.answer.number);
    if found == *expected {
        return Ok(());
    }
    Err(format!("the question of bench {bench} gives {found} and not {expected}"))
}
