//! Every function of the library, called in a thread with a small stack, on empty, short and full-size texts, lists,
//! pages and files. A call that takes more ends the process, and `fault` says in which call.

use std::collections::BTreeSet;
use std::fs;
use std::sync::mpsc::sync_channel;
use std::thread;

use super::benches::FUNCTIONS;
use super::page::functions;
use crate::calls::files::{self, Filed};
use crate::calls::{benches, limit, seeded, squeezes, List, Move};
use crate::fault;
use crate::formats::{self, Format};
use crate::library::benches as library_benches;
use crate::library::compare::{self, Comparer};
use crate::library::page as library_page;
use crate::library::page_file::{self, READ};
use crate::library::steps::Cursor;
use crate::library::{self, Function, Functions, JP2_PLAIN_READ, JP2_TALLY, SUBJECT_READ, SUBJECT_WRITE};
use crate::report::Report;
use crate::rng::Rng;
use crate::second::page::State;
use crate::second::{benches as second_benches, Kind, LIMIT};
use crate::texts::subject::SOURCE as SUBJECT;
use crate::texts::{self, Source};
use crate::trial::{try_all, Input};

/// A call may take 64 KiB. The rest is for what a thread has on its stack from the start, and for this program.
const STACK: usize = 96 * 1024;

/// Short texts of several sizes, and the most; beside them the empty one, and those of one element.
const LENGTHS: [usize; 5] = [64, 200, 1_025, 4_097, LIMIT];

const HEADER: &str = "include/qalithonda.h";

const WHAT: &str = "empty, short and full-size cases, in a thread with a stack of 96 KiB";

/// How many short pages and files each call is tried on.
const ROUNDS: usize = 50;

pub fn run(report: &mut Report, seed: u64) {
    let mut called = Vec::new();
    called.extend(of_format(report, &formats::utf7(), &library::UTF7, &compare::UTF7, seed));
    called.extend(of_format(report, &formats::jp2(), &library::JP2, &compare::JP2, seed));
    called.extend(of_format(report, &formats::mailbox(), &library::MAILBOX, &compare::MAILBOX, seed));
    called.push(list_call(report, &JP2_PLAIN_READ, texts(formats::jp2().source, seed), 1));
    called.push(list_call(report, &SUBJECT_READ, texts(&SUBJECT, seed), 1));
    called.push(list_call(report, &SUBJECT_WRITE, lists(&SUBJECT, seed), 78));
    called.push(tally(report, formats::jp2().source, seed));
    called.extend(of_page(report, seed));
    called.push(of_files(report, seed));
    called.extend(of_benches(report, seed));
    report.check("stack-functions", &format!("functions of {HEADER}, each of which was called"), |_| all_in(&called));
}

/// Tries the inputs, which are made in this thread one by one, in a thread with a small stack.
fn try_in_thread<I: Input + Send>(
    report: &mut Report,
    function: &str,
    inputs: impl IntoIterator<Item = I>,
    call: impl Fn(&I) + Sync + Send,
) -> String {
    let name = format!("stack-{function}");
    report.check(&name, WHAT, |_| {
        let (sender, receiver) = sync_channel(1);
        let work = || {
            fault::in_check(&name);
            try_all(receiver, |input| {
                call(input);
                Ok(())
            })
        };
        thread::scope(|scope| {
            let spawned = thread::Builder::new().stack_size(STACK).spawn_scoped(scope, work).expect("a thread");
            for input in inputs {
                sender.send(input).expect("a receiver");
            }
            drop(sender);
            spawned.join().expect("no panic")
        })
    });
    function.to_string()
}

/// The functions of a format.
fn of_format<C: Cursor>(
    report: &mut Report,
    format: &Format,
    library: &Functions<C>,
    comparer: &Comparer,
    seed: u64,
) -> Vec<String> {
    let step = &library.step;
    let walk = |text: &Vec<u8>| {
        let mut last = (step.step)(text, (step.start)());
        while last.given != 0 {
            last = (step.step)(text, last.next);
        }
    };
    let source = format.source;
    let mut called = vec![step.name.replace("_step", "_start")];
    called.push(try_in_thread(report, step.name, texts(source, seed), walk));
    called.push(list_call(report, &library.read, texts(source, seed), 1));
    called.push(try_in_thread(report, comparer.name, texts(source, seed), |text: &Vec<u8>| {
        let _ = [comparer.call(text, text), comparer.call(text, &text[..text.len() / 2])];
    }));
    called.extend(library.write.iter().map(|write| list_call(report, write, lists(source, seed), 7)));
    called
}

/// A reader or writer, with no room and with room for so many elements for each of its list, which is enough.
fn list_call<I: Copy + Send + Sync, O: Copy + Default>(
    report: &mut Report,
    function: &Function<I, O>,
    inputs: Vec<Vec<I>>,
    each: usize,
) -> String
where
    Vec<I>: Input,
{
    try_in_thread(report, function.name, inputs, |list| {
        function.call(list, &mut []);
        function.call(list, &mut vec![O::default(); each * list.len() + 3]);
    })
}

fn tally(report: &mut Report, source: &Source, seed: u64) -> String {
    try_in_thread(report, JP2_TALLY, lists(source, seed), |list| {
        library::jp2_tally(list, &mut [0; 9]);
    })
}

/// The calls on a page, each followed by the question: each sort on short pages, and all of them on full-size ones.
fn of_page(report: &mut Report, seed: u64) -> Vec<String> {
    let mut called: Vec<String> = functions()
        .map(|(function, sort)| try_in_thread(report, function, seeded::alone(seed, sort, ROUNDS), follow))
        .collect();
    let pages = seeded::pages(seed, ROUNDS);
    called.push(try_in_thread(report, library_page::UNCHANGED, pages, |list: &List| ask(&list.start)));
    let full = Kind::ALL.into_iter().flat_map(|kind| limit::lists(kind).chain(squeezes::at_limit(kind)));
    try_in_thread(report, "page-limit", full, follow);
    called
}

/// Makes the calls of a list, and asks the question after each.
fn follow(list: &List) {
    let mut state = list.start.clone();
    for item in &list.moves {
        match item {
            Move::Change(change) => change.make(&mut state),
            // These are tried one by one.
            Move::Read(_) => {}
            Move::Call(call) => {
                let (mut output, mut work) = (vec![0; call.room()], vec![0; call.work()]);
                let State { page, text, history } = &mut state;
                (_, *page) = library_page::make(call, *page, text, history, &mut output, &mut work);
                ask(&state);
            }
        }
    }
}

fn ask(state: &State) {
    library_page::ask(state.page, &state.text, &state.history);
}

/// The calls of both benches, each followed by the question: each sort on short texts, and all on full-size ones.
fn of_benches(report: &mut Report, seed: u64) -> Vec<String> {
    let short = |sort| benches::seeded::alone(seed, sort, ROUNDS);
    let mut called: Vec<String> = FUNCTIONS
        .into_iter()
        .map(|(function, sort)| try_in_thread(report, function, short(sort), follow_benches))
        .collect();
    let states = benches::seeded::states(seed, ROUNDS);
    let ask = |list: &benches::List| ask_benches(&list.start);
    called.push(try_in_thread(report, library_benches::UNCHANGED, states, ask));
    try_in_thread(report, "benches-limit", benches::limit::lists(), follow_benches);
    called
}

/// Makes the calls of a list, and asks the questions after each.
fn follow_benches(list: &benches::List) {
    let mut state = list.start.clone();
    for item in &list.moves {
        match item {
            benches::Move::Change(change) => change.make(&mut state),
            benches::Move::Call(call) => {
                let mut output = vec![0; call.room()];
                let second_benches::State { benches, texts: [first, second], history } = &mut state;
                (_, *benches) = library_benches::make(call, *benches, [first, second], history, &mut output);
                ask_benches(&state);
            }
        }
    }
}

fn ask_benches(state: &second_benches::State) {
    let [first, second] = &state.texts;
    for bench in 0..3 {
        library_benches::ask(state.benches, bench, [first, second], &state.history);
    }
}

fn of_files(report: &mut Report, seed: u64) -> String {
    let mut rng = Rng::new(seed, "files on a small stack");
    let short = Kind::ALL.into_iter().flat_map(files::small);
    let seeded = (0..ROUNDS).map(|_| {
        let kind = rng.pick(&Kind::ALL);
        files::one(&mut rng, kind)
    });
    let all = short.chain(seeded).chain(Kind::ALL.into_iter().flat_map(files::at_limit));
    try_in_thread(report, READ, all, |filed: &Filed| {
        let (State { mut text, mut history, .. }, mut arrived) = filed.buffers();
        page_file::read(&filed.file, &mut arrived, &mut text, &mut history);
    })
}

/// Texts of no and of one byte; whole texts, and texts with a fault of each kind.
fn texts(source: &Source, seed: u64) -> Vec<Vec<u8>> {
    let mut rng = Rng::new(seed, "texts on a small stack");
    let tiny = texts::up_to_two_bytes().take(257);
    let whole = LENGTHS.into_iter().map(|length| (source.whole)(&mut rng, length));
    tiny.chain(whole).chain(LENGTHS.into_iter().flat_map(|length| source.texts_of_length(length))).collect()
}

/// The empty list and those of one cell; seeded lists and those of the patterns.
fn lists(source: &Source, seed: u64) -> Vec<Vec<u32>> {
    let mut rng = Rng::new(seed, "lists on a small stack");
    let tiny = [vec![]].into_iter().chain((source.lone_cells)().into_iter().map(|cell| vec![cell]));
    let seeded = LENGTHS.into_iter().map(|length| source.list(&mut rng, length));
    tiny.chain(seeded).chain(LENGTHS.into_iter().flat_map(|length| source.lists_of_length(length))).collect()
}

/// That the functions of the header were all called; the count is theirs.
fn all_in(called: &[String]) -> Result<usize, String> {
    let header = fs::read_to_string(HEADER).map_err(|problem| format!("{HEADER}: {problem}"))?;
    let declared = functions_in(&header);
    let called: BTreeSet<&str> = called.iter().map(String::as_str).collect();
    let left: Vec<_> = declared.difference(&called).collect();
    if left.is_empty() && !declared.is_empty() {
        Ok(declared.len())
    } else {
        Err(format!("not called: {left:?}"))
    }
}

/// The names that stand directly before a parenthesis.
fn functions_in(header: &str) -> BTreeSet<&str> {
    let is_of_name = |letter: char| letter.is_ascii_alphanumeric() || letter == '_';
    let before = header.split('(').map(|part| part.rsplit(|letter| !is_of_name(letter)).next().unwrap_or(""));
    before.filter(|name| name.starts_with("qalithonda_")).collect()
}

#[cfg(test)]
mod tests {
    use super::*;

    #[test]
    fn functions_are_found_in_a_header() {
        let header =
            "/* `qalithonda_a` (see b) */ qalithonda_x qalithonda_f(int);\nvoid *qalithonda_g(void (*h)(int));";
        assert_eq!(functions_in(header), ["qalithonda_f", "qalithonda_g"].into());
    }
}
