//! Pages on which every number of steps is squeezed: with every mark, with work buffers of every length about the need,
//! and going on with what is left.

use super::{calls, made, seeded, List};
use crate::rng::Rng;
use crate::second::page::{sound, Page, Record, Sound, State};
use crate::second::squeeze::squeeze;
use crate::second::{Call, Kind, LIMIT};

/// The lists of so many pages, half of them made by hand and half opened and edited; and of pages where there is just a
/// gain, or just none.
pub fn lists(seed: u64, kind: Kind, count: usize) -> impl Iterator<Item = List> {
    let mut rng = Rng::new(seed, &format!("squeezes {}", kind.name()));
    let seeded = (0..count).flat_map(move |number| {
        let draft = if number % 2 == 0 { made::stepped(&mut rng, kind) } else { seeded::stepped(&mut rng, kind) };
        on_page(&draft.state)
    });
    seeded.chain(borders(kind).flat_map(|state| on_page(&state)))
}

/// Pages of a few cells with a few steps that change nothing: of k steps on n cells, the words of the fold are
/// 3k - (3 + 2n) fewer.
fn borders(kind: Kind) -> impl Iterator<Item = State> {
    let cell = kind.read(b"a").expect("a whole text")[0];
    (0..=5).flat_map(move |cells| {
        (2..=4).map(move |steps| State {
            page: Page { used: 3 * steps, done: 3 * steps, ..Page::opened(kind, cells) },
            text: vec![cell; cells],
            history: vec![0; 3 * steps],
        })
    })
}

/// Lists on a page, if it is sound; and else one.
fn on_page(state: &State) -> Vec<List> {
    let Some(Sound { standing, undone, .. }) = sound(state) else {
        return vec![calls(state.clone(), [Call::Squeeze { steps: 2, work: 200 }])];
    };
    let ends = ends(standing.iter().chain(&undone));
    let all_steps = standing.len() + undone.len();
    (0..=standing.len() + 1).flat_map(|steps| with_steps(state, steps, &ends, all_steps)).collect()
}

/// So many steps squeezed: in work buffers of several lengths, with each mark, and undone, redone and squeezed again.
fn with_steps(state: &State, steps: usize, ends: &[usize], all_steps: usize) -> Vec<List> {
    let needed = squeeze(state, steps).map_or(7, |squeezed| squeezed.record.len());
    let squeeze = |work| Call::Squeeze { steps, work };
    let rooms = [0].into_iter().chain(needed.saturating_sub(3)..needed + 4);
    let in_rooms = rooms.map(|work| calls(state.clone(), [squeeze(work)]));
    let marked = ends.iter().copied().map(Some).chain([None]).map(|saved| {
        let marked = State { page: Page { saved, ..state.page }, ..state.clone() };
        calls(marked, [squeeze(needed), Call::Undo, Call::Redo])
    });
    let turns = [squeeze(needed)].into_iter().chain(vec![Call::Undo; all_steps]).chain(vec![Call::Redo; all_steps]);
    let again = [2, 3].map(|steps| Call::Squeeze { steps, work: 2 * needed });
    let going_on = calls(state.clone(), turns.chain(again).chain([Call::Undo]));
    in_rooms.chain(marked).chain([going_on]).collect()
}

/// The words at the start and at the end of each record.
fn ends<'a>(records: impl Iterator<Item = &'a Record>) -> Vec<usize> {
    let mut ends = vec![0];
    ends.extend(records.scan(0, |end, record| {
        *end += record.words().len();
        Some(*end)
    }));
    ends
}

/// A page with as many steps that each add a cell as the history holds, all of them done or half: half of those are
/// squeezed, then all. And pages with a buffer that is too long.
pub fn at_limit(kind: Kind) -> Vec<List> {
    let cell = kind.read(b"a").expect("a whole text")[0];
    let count = LIMIT / 4;
    let history: Vec<u32> = (0..count as u32).flat_map(|place| [place, 0, 1, cell]).collect();
    let page = |done| Page { opening: 0, length: done / 4, used: LIMIT, done, saved: Some(done), kind: kind.number() };
    let squeeze = |steps, work| Call::Squeeze { steps, work };
    let stepped = |done| {
        let mut text = vec![cell; done / 4];
        text.resize(LIMIT, 0);
        let start = State { page: page(done), text, history: history.clone() };
        let all = done / 4;
        let half = [squeeze(all + 1, LIMIT), squeeze(all / 2, all / 2 + 2), squeeze(all / 2, all / 2 + 3)];
        let rest = [Call::Undo, Call::Redo, squeeze(all - all / 2 + 1, LIMIT + 1), Call::Redo, Call::Undo, Call::Undo];
        calls(start, half.into_iter().chain(rest))
    };
    let too_long = |(cells, words)| {
        let start = State { page: Page::opened(kind, 0), text: vec![0; cells], history: vec![0; words] };
        calls(start, [squeeze(0, 0), squeeze(2, 3)])
    };
    let lengths = [(LIMIT + 1, 0), (0, LIMIT + 1), (LIMIT, LIMIT)];
    [LIMIT, LIMIT / 2].map(stepped).into_iter().chain(lengths.map(too_long)).collect()
}

#[cfg(test)]
mod tests {
    use super::*;
    use crate::calls::Move;
    use crate::second::page::left;
    use std::collections::BTreeMap;

    /// How often the first calls of lists gave each number.
    fn numbers(lists: impl Iterator<Item = List>) -> BTreeMap<u32, usize> {
        let mut numbers = BTreeMap::new();
        for list in lists {
            if let Some(Move::Call(call)) = list.moves.first() {
                *numbers.entry(left(&list.start, call, &[]).answer.number).or_default() += 1;
            }
        }
        numbers
    }

    #[test]
    fn squeezes_are_accepted_and_refused() {
        for kind in Kind::ALL {
            let numbers = numbers(lists(1, kind, 60));
            for number in [0, 9, 11, 19] {
                assert!(numbers.get(&number).is_some_and(|&count| count >= 80), "{number} of {numbers:?}");
            }
        }
    }

    #[test]
    fn both_sides_of_no_gain_are_tried() {
        for kind in Kind::ALL {
            let mut gains = BTreeMap::new();
            for list in lists(1, kind, 10) {
                let (Some(sound), Some(Move::Call(Call::Squeeze { steps, .. }))) =
                    (sound(&list.start), list.moves.first())
                else {
                    continue;
                };
                if (2..=sound.standing.len()).contains(steps) {
                    let folded = &sound.standing[..*steps];
                    let removed: usize = folded.iter().map(|record| record.removed.len()).sum();
                    // The words of the folded steps without those of the fold: 3 for each but one, and each cell that
                    // is removed is neither in the opening text nor in the text after them.
                    let gain = (3 * (steps - 1) + 2 * removed) as isize - 2 * list.start.page.opening as isize;
                    *gains.entry(gain).or_insert(0) += 1;
                }
            }
            assert!((-3..=3).all(|gain| gains.contains_key(&gain)), "{gains:?}");
        }
    }
}
