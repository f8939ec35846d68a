//! Benches with each of their numbers, words and cells changed in every way that the rules tell apart.

use super::draft::Draft;
use super::{made, seeded, Change, List};
use crate::rng::Rng;
use crate::second::benches::{Bench, Benches, State};

/// So many states, half of them made by hand and half opened and edited; each with every change by itself, and a call
/// of each sort.
pub fn lists(seed: u64, count: usize) -> impl Iterator<Item = List> {
    let mut rng = Rng::new(seed, "benches harmed");
    (0..count).flat_map(move |number| {
        let draft = if number % 2 == 0 { made::draft(&mut rng) } else { seeded::edited(&mut rng, seeded::SMALL) };
        let harmed = |change| harmed(&mut rng, &draft, change);
        every_change(&draft.state).into_iter().map(harmed).collect::<Vec<List>>()
    })
}

fn harmed(rng: &mut Rng, draft: &Draft, change: Change) -> List {
    let mut draft = Draft::new(draft.state.clone(), draft.kinds, draft.arrived.clone());
    draft.change_by(change);
    draft.add_each(rng);
    draft.list
}

pub fn every_change(state: &State) -> Vec<Change> {
    let State { benches: Benches { used, .. }, history, .. } = state;
    let of_benches = [0, 1].into_iter().flat_map(|bench| of_bench(state, bench));
    let words = (0..history.len()).filter(|&index| index < used + 3 || index + 2 > history.len());
    let words = words.flat_map(|index| other_words(history[index]).map(move |word| Change::Word(index, word)));
    of_benches.chain(numbers(*used, history.len()).map(Change::Used)).chain(words).collect()
}

/// Every kind; every length, count and mark about those that it can have; and cells past its text.
fn of_bench(state: &State, bench: usize) -> Vec<Change> {
    let State { benches, texts, history } = state;
    let Bench { opening, length, standing, saved, .. } = benches.each[bench];
    let kinds = [0, 1, 2, 3, 4, 256, 258, 65_536, u32::MAX].map(|kind| Change::Kind(bench, kind)).into_iter();
    let openings = numbers(opening, texts[bench].len()).map(|number| Change::Opening(bench, number));
    let lengths = numbers(length, texts[bench].len()).map(|number| Change::Length(bench, number));
    // A record has four words or more.
    let most = history.len() / 4;
    let counts = numbers(standing, most).map(|number| Change::Standing(bench, number));
    let marks = numbers(saved.unwrap_or(0), most).map(Some).chain([None]);
    let marks = marks.map(|mark| Change::Saved(bench, mark));
    let past = (length..texts[bench].len()).flat_map(|index| [(index, 1), (index, u32::MAX)]);
    let past = past.map(|(index, cell)| Change::Cell(bench, index, cell));
    kinds.chain(openings).chain(lengths).chain(counts).chain(marks).chain(past).collect()
}

/// All numbers up to a little past this end; and larger ones, of which some come to little or to this number if they
/// are cut off at 32 bits, or if something is added to them.
fn numbers(number: usize, end: usize) -> impl Iterator<Item = usize> {
    let cut_off = [1 << 32, number.wrapping_add(1 << 32), 1 << 31, (1 << 32) - 1];
    (0..end + 3).chain(cut_off).chain((2..6).map(|little| usize::MAX - little)).chain([usize::MAX / 2 + 1])
}

/// Words in the place of this one: a bench, no bench, near it, and far.
fn other_words(word: u32) -> impl Iterator<Item = u32> {
    let near = [word.wrapping_add(1), word.wrapping_sub(1), word ^ 256, word ^ (1 << 31)];
    [0, 1, 2, 3, u32::MAX, u32::MAX - 3].into_iter().chain(near).filter(move |&other| other != word)
}

#[cfg(test)]
mod tests {
    use super::*;
    use crate::second::benches::{ask, sound};

    #[test]
    fn first_words_counts_and_marks_are_judged_by_the_records() {
        let mut rng = Rng::new(1, "judged by the records");
        for _ in 0..60 {
            let state = seeded::edited(&mut rng, seeded::SMALL).state;
            let sound = sound(&state).expect("benches that were opened");
            let count = |bench: usize| sound.records(bench).len();
            let ends: Vec<usize> = sound.entries.iter().map(|entry| entry.words().len()).collect();
            let first_words: Vec<usize> = (0..ends.len()).map(|number| ends[..number].iter().sum()).collect();
            for change in every_change(&state) {
                let fits = match change {
                    Change::Kind(_, kind) => kind < 3,
                    Change::Standing(bench, standing) if standing > count(bench) => false,
                    Change::Saved(bench, saved) => saved.is_none_or(|mark| mark <= count(bench)),
                    Change::Cell(..) => false,
                    Change::Word(index, _) if index >= state.benches.used => false,
                    Change::Word(index, word) if word > 1 && first_words.contains(&index) => false,
                    _ => continue,
                };
                let mut harmed = state.clone();
                change.make(&mut harmed);
                assert_eq!(ask(&harmed, 0).answer.number, if fits { 0 } else { 14 }, "{change}");
            }
        }
    }
}
