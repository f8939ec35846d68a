//! Pairs of runs: one bench has "the same kind, arrived text, buffer lengths and calls" in both; the other need not.

use std::ops::Range;

use super::draft::Draft;
use super::seeded::{self, Size};
use super::{blank, List, Move};
use crate::rng::Rng;
use crate::second::benches::{Call, State, Turn};
use crate::second::Kind;
use crate::texts;
use crate::trial::{quote, without, Input};

/// A bench, and beside it the other one of each run.
#[derive(Clone)]
pub struct Pair {
    pub bench: usize,
    own: Letter,
    turns: Vec<Turn>,
    others: [Other; 2],
}

/// What is opened on a bench, in a text buffer of so many cells.
#[derive(Clone)]
struct Letter {
    kind: Kind,
    arrived: Vec<u8>,
    cells: usize,
}

/// The other bench of a run, and the words of the history that both have.
#[derive(Clone)]
struct Other {
    letter: Letter,
    words: usize,
    /// Its calls, each with the number of the call of the first bench that follows it.
    turns: Vec<(usize, Turn)>,
}

pub fn pairs(seed: u64, count: usize) -> impl Iterator<Item = Pair> {
    let mut rng = Rng::new(seed, "two runs");
    (0..count).map(move |_| pair(&mut rng))
}

fn pair(rng: &mut Rng) -> Pair {
    let bench = rng.below(2);
    let size = rng.pick(&[seeded::SMALL, seeded::SMALL, seeded::SHORT]);
    let draft = seeded::edited_long(rng, size);
    let (turns, others) = parted(&draft.list, bench);
    let first = Other { letter: letter(&draft, 1 - bench), words: draft.state.history.len(), turns: others };
    let second = match rng.below(4) {
        // It makes no call; it makes calls that need as many words, with other cells; or it has nothing of the first.
        0 => Other { turns: Vec::new(), ..first.clone() },
        1 => alike(rng, &first),
        _ => stranger(rng, size, bench, turns.len(), first.words),
    };
    Pair { bench, own: letter(&draft, bench), turns, others: [first, second] }
}

fn letter(draft: &Draft, bench: usize) -> Letter {
    let (kind, cells) = (draft.kinds[bench], draft.state.texts[bench].len());
    Letter { kind, arrived: draft.arrived[bench].clone(), cells }
}

/// The calls of a bench, and those of the other.
fn parted(list: &List, bench: usize) -> (Vec<Turn>, Vec<(usize, Turn)>) {
    let (mut own, mut others) = (Vec::new(), Vec::new());
    for item in &list.moves {
        match item {
            Move::Call(Call::Of { bench: of, turn }) if *of == bench => own.push(turn.clone()),
            Move::Call(Call::Of { bench: of, turn }) if *of == 1 - bench => others.push((own.len(), turn.clone())),
            _ => {}
        }
    }
    (own, others)
}

/// The same calls, with other cells.
fn alike(rng: &mut Rng, other: &Other) -> Other {
    let source = texts::of_kind(other.letter.kind);
    let turns = other.turns.iter().map(|(before, turn)| match turn {
        Turn::Replace { place, count, cells } if other.letter.kind.write(cells).is_ok() => {
            let cells = (source.cells)(rng, cells.len());
            (*before, Turn::Replace { place: *place, count: *count, cells })
        }
        _ => (*before, turn.clone()),
    });
    Other { turns: turns.collect(), ..other.clone() }
}

/// The other bench of another list, with its calls anywhere among so many, and a history of any length.
fn stranger(rng: &mut Rng, size: Size, bench: usize, turns: usize, words: usize) -> Other {
    let draft = seeded::edited_long(rng, size);
    let (_, others) = parted(&draft.list, bench);
    let mut places: Vec<usize> = others.iter().map(|_| rng.below(turns + 1)).collect();
    places.sort_unstable();
    let words = rng.pick(&[words, words, words + 20, draft.state.history.len(), 10_000]);
    let turns = places.into_iter().zip(others).map(|(before, (_, turn))| (before, turn)).collect();
    Other { letter: letter(&draft, 1 - bench), words, turns }
}

impl Pair {
    /// The buffers of a run.
    pub fn start(&self, run: usize) -> State {
        let Other { letter, words, .. } = &self.others[run];
        blank(self.in_order(self.own.cells, letter.cells), *words)
    }

    /// The open of a run.
    pub fn open(&self, run: usize) -> Call {
        let letters = self.in_order(&self.own, &self.others[run].letter);
        let arrived = letters.map(|letter| letter.arrived.clone());
        Call::Open { kinds: letters.map(|letter| letter.kind.number()), arrived }
    }

    /// The calls of a run after the open.
    pub fn calls(&self, run: usize) -> Vec<Call> {
        let own = self.turns.iter().enumerate().map(|(number, turn)| ((number, true), self.bench, turn));
        let others = self.others[run].turns.iter().map(|(before, turn)| ((*before, false), 1 - self.bench, turn));
        let mut all: Vec<_> = own.chain(others).collect();
        all.sort_by_key(|&(when, ..)| when);
        all.into_iter().map(|(_, bench, turn)| Call::Of { bench, turn: turn.clone() }).collect()
    }

    fn in_order<T>(&self, own: T, other: T) -> [T; 2] {
        if self.bench == 0 {
            [own, other]
        } else {
            [other, own]
        }
    }
}

/// Its parts are the calls of the bench, and then those of the other one in each run.
impl Input for Pair {
    fn length(&self) -> usize {
        self.turns.len() + self.others.iter().map(|other| other.turns.len()).sum::<usize>()
    }

    fn without(&self, parts: Range<usize>) -> Pair {
        let mut pair = self.clone();
        let mut start = self.turns.len();
        pair.turns = without(&self.turns, within(&parts, 0, start));
        for (other, whole) in pair.others.iter_mut().zip(&self.others) {
            other.turns = without(&whole.turns, within(&parts, start, whole.turns.len()));
            start += whole.turns.len();
        }
        pair
    }

    fn show(&self) -> String {
        let run = |number: usize| {
            let start = self.start(number);
            let [first, second] = start.texts.map(|text| text.len());
            let calls = [self.open(number)].into_iter().chain(self.calls(number));
            let calls: String = (1..).zip(calls).map(|(number, call)| format!("\n    {number}. {call}")).collect();
            format!("{first} and {second} cells and {} words{calls}", start.history.len())
        };
        format!("bench {} on {} in {}\n  and in {}", self.bench, quote(&self.own.arrived), run(0), run(1))
    }
}

/// The part of a range that lies in a list of this length, whose first element has this index.
fn within(parts: &Range<usize>, start: usize, length: usize) -> Range<usize> {
    let index = |at: usize| at.saturating_sub(start).min(length);
    index(parts.start)..index(parts.end)
}

#[cfg(test)]
mod tests {
    use super::*;

    #[test]
    fn parts_can_be_left_out() {
        for pair in pairs(1, 40) {
            let length = pair.length();
            assert_eq!(pair.without(0..length).length(), 0);
            for at in 0..length {
                assert_eq!(pair.without(at..at + 1).length(), length - 1);
            }
        }
    }

    #[test]
    fn the_calls_of_the_bench_are_the_same_in_both_runs() {
        for pair in pairs(1, 200) {
            let own = |run: usize| -> Vec<Call> {
                let is_own = |call: &Call| matches!(call, Call::Of { bench, .. } if *bench == pair.bench);
                pair.calls(run).into_iter().filter(is_own).collect()
            };
            assert_eq!(own(0), own(1));
        }
    }
}
