//! Both benches, after order 13 of document 02, as docs/DECISIONS.md reads it; what it does not say again of a bench is
//! what document 01 says of a page. Quotations are sentences of order 13 where no other paper is named. A call is a
//! function from all that is lent to all that is left: the history is cut into one list of records, in the order
//! accepted, and laid out again.

use super::page::{self, padded, reached, Asked, Page, Record, NOTHING};
use super::{outcome, refuse, within_limit, Answer, Elements, Kind};

/// A call on one bench: replace, undo, redo or save. "Squeezing and page files stay with single pages."
pub use super::Call as Turn;

/// "Each bench has its own kind, text, count of standing steps and saved mark (a count of its steps, ..)", and an
/// opening length. The kind is a number, which may be that of no kind.
#[derive(Clone, Copy, Debug, PartialEq, Eq)]
pub struct Bench {
    pub kind: u32,
    pub opening: usize,
    pub length: usize,
    pub standing: usize,
    pub saved: Option<usize>,
}

impl Bench {
    /// A bench of this length on which nothing was done. Order 5: "An accepted open sets it to 0".
    pub fn opened(kind: Kind, length: usize) -> Bench {
        Bench { kind: kind.number(), opening: length, length, standing: 0, saved: Some(0) }
    }

    /// "refused, it gives the kinds, zeros and no marks."
    fn refused(kind: u32) -> Bench {
        Bench { kind, opening: 0, length: 0, standing: 0, saved: None }
    }
}

/// Both benches, and the words that their records have in the one history.
#[derive(Clone, Copy, Debug, PartialEq, Eq)]
pub struct Benches {
    pub each: [Bench; 2],
    pub used: usize,
}

/// Both benches with all that is lent beside them: two text buffers, and "one history room between them".
#[derive(Clone, Debug, PartialEq, Eq)]
pub struct State {
    pub benches: Benches,
    pub texts: [Vec<u32>; 2],
    pub history: Vec<u32>,
}

#[derive(Clone, Debug, PartialEq, Eq)]
pub enum Call {
    /// "One open takes both arrived texts". A kind is a number, which may be that of no kind.
    Open { kinds: [u32; 2], arrived: [Vec<u8>; 2] },
    /// A call of the bench with this number, if there is such a bench.
    Of { bench: usize, turn: Turn },
}

impl Call {
    /// The length of the output lent to it.
    pub fn room(&self) -> usize {
        match self {
            Call::Open { .. } => 0,
            Call::Of { turn, .. } => turn.room(),
        }
    }
}

/// What a call leaves: its answer, the benches with their buffers, and the whole of the output lent to it.
#[derive(Clone, Debug, PartialEq, Eq)]
pub struct Left {
    pub answer: Answer,
    pub state: State,
    pub output: Vec<u8>,
}

/// What a call leaves that is lent this state and this output.
pub fn left(state: &State, call: &Call, output: &[u8]) -> Left {
    match call {
        Call::Open { kinds, arrived } => {
            let benches = Benches { each: kinds.map(Bench::refused), used: 0 };
            let blank = State { benches, ..state.clone() };
            edited(&blank, open(&blank, *kinds, arrived), output)
        }
        Call::Of { bench, turn: Turn::Save { arrived, .. } } => saved(state, *bench, arrived, output),
        Call::Of { bench, turn } => {
            // As on a page, "replace, undo and redo answer the new length".
            let after = turned(state, *bench, turn);
            edited(state, after.map(|state| (state.benches.each[*bench].length, state)), output)
        }
    }
}

fn turned(state: &State, bench: usize, turn: &Turn) -> Result<State, Answer> {
    match turn {
        Turn::Replace { place, count, cells } => replace(state, bench, *place, *count, cells),
        Turn::Undo => undo(state, bench),
        Turn::Redo => redo(state, bench),
        _ => panic!("no call of a bench"),
    }
}

/// What is left by a call that gives this place and this state, or refuses; it has no use for the output.
fn edited(before: &State, after: Result<(usize, State), Answer>, output: &[u8]) -> Left {
    let (answer, state) = match after {
        Ok((place, state)) => (Answer { number: 0, place }, state),
        // Document 01: "A refusal changes no page and no buffer."
        Err(answer) => (answer, before.clone()),
    };
    Left { answer, state, output: output.to_vec() }
}

/// What a save leaves: the mark is "kept (..) by order 5's rules with standing steps in place of words done".
fn saved(state: &State, bench: usize, arrived: &[u8], output: &[u8]) -> Left {
    let written = outcome(&save(state, bench, arrived), output);
    let mut state = state.clone();
    if written.answer.number == 0 {
        let bench = &mut state.benches.each[bench];
        bench.saved = Some(bench.standing);
    }
    Left { answer: written.answer, state, output: written.output }
}

/// The question: order 5's "16, then 14, else place 0" with 20 between them, and '"unchanged" exactly when the mark
/// equals' the standing steps. Refused, it answers no.
pub fn ask(state: &State, bench: usize) -> Asked {
    match accepted(state, bench, 0) {
        Err(answer) => Asked { answer, unchanged: false },
        Ok(_) => {
            let Bench { standing, saved, .. } = state.benches.each[bench];
            Asked { answer: Answer { number: 0, place: 0 }, unchanged: saved == Some(standing) }
        }
    }
}

/// A record, and the bench whose it is: "A record gains a first word, bench 0 or 1, and needs four words besides its
/// cells."
#[derive(Clone, Debug, PartialEq, Eq)]
pub struct Entry {
    pub bench: usize,
    pub record: Record,
}

impl Entry {
    pub fn words(&self) -> Vec<u32> {
        [vec![self.bench as u32], self.record.words()].concat()
    }
}

/// "Records lie in the order accepted": those that tile these words, if any do, and "every first word [is] 0 or 1".
fn entries(mut words: &[u32]) -> Option<Vec<Entry>> {
    let mut entries = Vec::new();
    while let Some((&bench, rest)) = words.split_first() {
        let (record, rest) = Record::first_of(rest)?;
        if bench > 1 {
            return None;
        }
        entries.push(Entry { bench: bench as usize, record });
        words = rest;
    }
    Some(entries)
}

/// What sound benches say.
pub struct Sound {
    pub kinds: [Kind; 2],
    pub texts: [Vec<u32>; 2],
    pub entries: Vec<Entry>,
}

impl Sound {
    /// The records of a bench.
    pub fn records(&self, bench: usize) -> Vec<Record> {
        records_of(&self.entries, bench)
    }
}

fn records_of(entries: &[Entry], bench: usize) -> Vec<Record> {
    entries.iter().filter(|entry| entry.bench == bench).map(|entry| entry.record.clone()).collect()
}

/// "14 is over both benches, each judged by its own records and text". What they say if they are sound.
pub fn sound(state: &State) -> Option<Sound> {
    let State { benches, texts, history } = state;
    let (words, past) = history.split_at_checked(benches.used)?;
    let entries = entries(words)?;
    let judge = |bench: usize| judged(&benches.each[bench], &texts[bench], &records_of(&entries, bench));
    let [(kind, text), (other_kind, other_text)] = [judge(0)?, judge(1)?];
    let zeros_past_the_words = past.iter().all(|&word| word == 0);
    zeros_past_the_words.then(|| Sound { kinds: [kind, other_kind], texts: [text, other_text], entries })
}

/// The kind and the text of a bench with these records, if it is sound as a page is: document 01 asks that "both
/// lengths (..) fit their buffers", that "each record's removed part lies within the text length reached so far from the
/// opening length, no such length exceeds the text buffer, the length reached" where it stands is its own, "and
/// everything past the ends is 0".
fn judged(bench: &Bench, text: &[u32], records: &[Record]) -> Option<(Kind, Vec<u32>)> {
    // The C interface: a bench whose number is of no kind is not sound.
    let kind = Kind::of_number(bench.kind)?;
    let (cells, past) = text.split_at_checked(bench.length)?;
    if bench.opening > text.len() {
        return None;
    }
    let lengths: Vec<usize> = reached(bench.opening, records)?.into_iter().map(|(_, length)| length).collect();
    // "its standing steps and any mark at most the number of its records"
    let length = *lengths.get(bench.standing)?;
    let mark_fits = bench.saved.is_none_or(|mark| mark <= records.len());
    let lengths_fit = lengths.iter().all(|&length| length <= text.len());
    let is_sound = mark_fits && lengths_fit && length == bench.length && past.iter().all(|&cell| cell == 0);
    is_sound.then(|| (kind, cells.to_vec()))
}

/// What sound benches say to a call of this bench that is lent a list of this length; or the refusal that comes before
/// all others: 16 over that list, both texts and the history; "20 (no such bench, place 0) after 16 and before 14".
fn accepted(state: &State, bench: usize, list: usize) -> Result<Sound, Answer> {
    let [first, second] = &state.texts;
    [list, first.len(), second.len(), state.history.len()].into_iter().try_for_each(within_limit)?;
    if bench > 1 {
        return refuse(20, 0);
    }
    sound(state).ok_or(Answer { number: 14, place: 0 })
}

/// "One open takes both arrived texts and refuses as two opens would, bench 0's first. Accepted, its place is the sum
/// of both counts".
fn open(state: &State, kinds: [u32; 2], arrived: &[Vec<u8>; 2]) -> Result<(usize, State), Answer> {
    let [Some(kind), Some(other_kind)] = kinds.map(Kind::of_number) else {
        return refuse_no_kind(state, arrived);
    };
    let open = |bench: usize, kind: Kind| {
        let page = page::State {
            page: Page::opened(kind, 0),
            text: state.texts[bench].clone(),
            history: state.history.clone(),
        };
        page::open(&page, kind, &arrived[bench])
    };
    let [first, second] = [open(0, kind)?, open(1, other_kind)?];
    let (count, other_count) = (first.page.length, second.page.length);
    let each = [Bench::opened(kind, count), Bench::opened(other_kind, other_count)];
    let texts = [first.text, second.text];
    Ok((count + other_count, State { benches: Benches { each, used: 0 }, texts, history: first.history }))
}

/// The C interface, where a number of no kind is handed in: 16 over all that is lent, else 14.
fn refuse_no_kind<T>(state: &State, arrived: &[Vec<u8>; 2]) -> Result<T, Answer> {
    let [text, other_text] = &state.texts;
    let [arrived, other_arrived] = arrived;
    let lengths = [arrived.len(), other_arrived.len(), text.len(), other_text.len(), state.history.len()];
    lengths.into_iter().try_for_each(within_limit)?;
    refuse(14, 0)
}

/// Document 01: "Replace: 14, 11, 10, 9, 12."
fn replace(state: &State, bench: usize, place: usize, count: usize, cells: &[u32]) -> Result<State, Answer> {
    let Sound { kinds, texts, entries } = accepted(state, bench, cells.len())?;
    let text = &texts[bench];
    if place as u128 + count as u128 > text.len() as u128 {
        return refuse(11, text.len());
    }
    kinds[bench].write(cells)?;
    let step = Record { place, removed: text[place..place + count].to_vec(), added: cells.to_vec() };
    let text = step.done_on(text);
    if text.len() > state.texts[bench].len() {
        return refuse(9, text.len());
    }
    let Bench { standing, saved, .. } = state.benches.each[bench];
    let kept = without_undone(entries, bench, standing);
    let words: Vec<u32> = kept.iter().chain([&Entry { bench, record: step }]).flat_map(Entry::words).collect();
    // "12 exactly when all words, less the caller's undone ones, plus the new record's exceed the room."
    if words.len() > state.history.len() {
        return refuse(12, words.len());
    }
    let mut recorded = state.clone();
    recorded.benches.used = words.len();
    recorded.history = padded(words, state.history.len());
    // Order 5: a replace "made while the mark exceeds" the standing steps "sets it to none".
    recorded.benches.each[bench].saved = saved.filter(|&mark| mark <= standing);
    Ok(moved(recorded, bench, text, standing + 1))
}

/// "dropping a bench's undone steps closes the gap at once." The other's stay.
fn without_undone(entries: Vec<Entry>, bench: usize, standing: usize) -> Vec<Entry> {
    let mut own = 0;
    let stays = |entry: &Entry| {
        own += usize::from(entry.bench == bench);
        entry.bench != bench || own <= standing
    };
    entries.into_iter().filter(stays).collect()
}

fn undo(state: &State, bench: usize) -> Result<State, Answer> {
    let sound = accepted(state, bench, 0)?;
    let standing = state.benches.each[bench].standing;
    let last = standing.checked_sub(1).ok_or(NOTHING)?;
    let step = sound.records(bench)[last].reversed();
    Ok(moved(state.clone(), bench, step.done_on(&sound.texts[bench]), last))
}

fn redo(state: &State, bench: usize) -> Result<State, Answer> {
    let sound = accepted(state, bench, 0)?;
    let standing = state.benches.each[bench].standing;
    let records = sound.records(bench);
    let step = records.get(standing).ok_or(NOTHING)?;
    Ok(moved(state.clone(), bench, step.done_on(&sound.texts[bench]), standing + 1))
}

/// The state with this text on a bench, and with so many of its steps standing.
fn moved(mut state: State, bench: usize, text: Vec<u32>, standing: usize) -> State {
    let moved = Bench { length: text.len(), standing, ..state.benches.each[bench] };
    state.benches.each[bench] = moved;
    state.texts[bench] = padded(text, state.texts[bench].len());
    state
}

/// The bytes that are saved, or the refusal, where there is room enough. Document 01: "Save: 14, then 15 where no step
/// stands or 10 where one does, then 9."
pub fn save(state: &State, bench: usize, arrived: &[u8]) -> Elements<u8> {
    let Sound { kinds, texts, .. } = accepted(state, bench, arrived.len())?;
    if state.benches.each[bench].standing > 0 {
        return kinds[bench].write(&texts[bench]);
    }
    if kinds[bench].read(arrived).as_ref() != Ok(&texts[bench]) {
        return refuse(15, 0);
    }
    Ok(arrived.to_vec())
}

#[cfg(test)]
mod tests {
    use super::*;
    use crate::examples::benches::{course, judged, questions, Turned};

    #[test]
    fn follows_the_course() {
        let (mut state, turns) = course();
        for Turned { call, left: expected, unchanged } in &turns {
            let found = left(&state, call, &vec![0; call.room()]);
            assert_eq!(&found, expected, "{call}");
            state = found.state;
            assert_eq!([0, 1].map(|bench| ask(&state, bench).unchanged), *unchanged, "{call}");
        }
    }

    #[test]
    fn answers_the_examples() {
        for example in judged() {
            let output = vec![0; example.call.room()];
            let found = left(&example.state, &example.call, &output);
            assert_eq!(found.answer, example.answer, "{example}");
            if found.answer.number != 0 && !matches!(example.call, Call::Open { .. }) {
                assert_eq!((found.state, found.output), (example.state, output));
            }
        }
    }

    #[test]
    fn answers_the_questions() {
        for question in questions() {
            assert_eq!(ask(&question.state, question.bench), question.asked, "{question}");
        }
    }

    #[test]
    fn a_refused_open_gives_the_kinds_and_leaves_the_buffers() {
        let bench = Bench { kind: 7, opening: 1, length: 1, standing: 1, saved: Some(1) };
        let benches = Benches { each: [bench; 2], used: 1 };
        let state = State { benches, texts: [vec![7; 2], vec![7; 3]], history: vec![7; 2] };
        let refused = [([1, 2], [b"abc", b"abc"]), ([1, 2], [b"+-A", b"\x1Bbc"]), ([3, 9], [b"abc", b"abc"])];
        for (kinds, arrived) in refused {
            let call = Call::Open { kinds, arrived: arrived.map(|bytes| bytes.to_vec()) };
            let found = left(&state, &call, &[]);
            assert_ne!(found.answer.number, 0);
            let each = kinds.map(|kind| Bench { kind, opening: 0, length: 0, standing: 0, saved: None });
            assert_eq!(found.state, State { benches: Benches { each, used: 0 }, ..state.clone() });
        }
    }
}
