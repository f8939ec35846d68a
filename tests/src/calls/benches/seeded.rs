//! Seeded lists of calls of both benches.

use super::draft::Draft;
use super::{blank, made, List, Sort};
use crate::calls::seeded::fitting;
use crate::rng::Rng;
use crate::second::Kind;

/// The greatest buffers of a list, and how often calls are added to it.
#[derive(Clone, Copy)]
pub struct Size {
    cells: usize,
    words: usize,
    turns: usize,
}

pub const SMALL: Size = Size { cells: 30, words: 90, turns: 16 };
/// For many steps on short texts.
pub const SHORT: Size = Size { cells: 8, words: 250, turns: 40 };
pub const LARGE: Size = Size { cells: 500, words: 900, turns: 40 };

/// So many lists of calls after an accepted open.
pub fn opened(seed: u64, size: Size, count: usize) -> impl Iterator<Item = List> {
    seeded(seed, format!("benches opened {}", size.cells), count, move |rng| {
        let mut draft = edited_long(rng, size);
        // Others are opened in the same buffers.
        if rng.one_in(12) {
            draft.reopen(rng);
            for _ in 0..rng.between(1, size.turns) {
                draft.add_calls(rng);
            }
        }
        draft
    })
}

/// So many lists in which calls are made of benches that were opened, edited, and then changed by hand.
pub fn changed(seed: u64, count: usize) -> impl Iterator<Item = List> {
    seeded(seed, "benches changed".to_string(), count, move |rng| {
        let mut draft = edited(rng, SMALL);
        for _ in 0..rng.pick(&[1, 1, 1, 2, 3]) {
            draft.add_change(rng);
        }
        draft.add_each(rng);
        if rng.one_in(4) {
            draft.add_open();
            draft.add_each(rng);
        }
        draft
    })
}

/// So many lists of calls of benches made by hand.
pub fn made(seed: u64, count: usize) -> impl Iterator<Item = List> {
    seeded(seed, "benches made".to_string(), count, move |rng| {
        let mut draft = made::draft(rng);
        draft.add_each(rng);
        for _ in 0..rng.below(6) {
            draft.add_calls(rng);
        }
        draft
    })
}

/// So many calls of a sort, each by itself: of benches that were opened and edited, that were made by hand, or of any
/// numbers; changed by hand or not.
pub fn alone(seed: u64, sort: Sort, count: usize) -> impl Iterator<Item = List> {
    let mut rng = Rng::new(seed, "calls of benches by themselves");
    (0..count).map(move |_| some_benches(&mut rng).alone(&mut rng, sort))
}

/// So many of the benches that such calls are made of, with no call.
pub fn states(seed: u64, count: usize) -> impl Iterator<Item = List> {
    let mut rng = Rng::new(seed, "benches by themselves");
    (0..count).map(move |_| List { start: some_benches(&mut rng).state, moves: Vec::new() })
}

fn some_benches(rng: &mut Rng) -> Draft {
    let size = rng.pick(&[SMALL, SMALL, SHORT, LARGE]);
    let mut draft = match rng.below(4) {
        0..=1 => edited(rng, size),
        2 => made::draft(rng),
        _ => made::any(rng),
    };
    for _ in 0..rng.pick(&[0, 0, 1, 2]) {
        draft.add_change(rng);
    }
    draft
}

/// A draft in which benches are opened and edited, as often as this size has it.
pub(super) fn edited_long(rng: &mut Rng, size: Size) -> Draft {
    let mut draft = open(rng, size);
    for _ in 0..rng.between(1, size.turns) {
        draft.add_calls(rng);
    }
    draft
}

/// A draft in which benches are opened and edited a little.
pub(super) fn edited(rng: &mut Rng, size: Size) -> Draft {
    let mut draft = open(rng, size);
    for _ in 0..rng.below(8) {
        draft.add_calls(rng);
    }
    draft
}

fn seeded(seed: u64, purpose: String, count: usize, draft: impl Fn(&mut Rng) -> Draft) -> impl Iterator<Item = List> {
    let mut rng = Rng::new(seed, &purpose);
    (0..count).map(move |_| draft(&mut rng).list)
}

/// A draft with an accepted open.
fn open(rng: &mut Rng, size: Size) -> Draft {
    let (cells, words) = ([0, 1].map(|_| rng.between(0, size.cells)), rng.between(0, size.words));
    let (kinds, arrived) = fitting_both(rng, cells);
    let mut draft = Draft::new(blank(cells, words), kinds, arrived);
    draft.add_open();
    draft
}

/// Two kinds, and for each a text that is read into at most so many cells.
pub(super) fn fitting_both(rng: &mut Rng, cells: [usize; 2]) -> ([Kind; 2], [Vec<u8>; 2]) {
    let kinds = [0, 1].map(|_| rng.pick(&Kind::ALL));
    (kinds, [0, 1].map(|bench| fitting(rng, kinds[bench], cells[bench])))
}

#[cfg(test)]
mod tests {
    use super::*;
    use crate::calls::benches::Move;
    use crate::second::benches::{ask, left, sound, Call, State, Turn};

    /// The states before and after each call of a list, with its answer's number.
    fn course(list: &List) -> Vec<(State, Call, u32, State)> {
        let mut state = list.start.clone();
        let mut course = Vec::new();
        for item in &list.moves {
            let Move::Call(call) = item else { panic!("a change") };
            let after = left(&state, call, &vec![0; call.room()]);
            course.push((state, call.clone(), after.answer.number, after.state.clone()));
            state = after.state;
        }
        course
    }

    #[test]
    fn lists_start_with_an_accepted_open() {
        for list in opened(1, SMALL, 300).chain(opened(1, LARGE, 20)) {
            let course = course(&list);
            assert!(matches!(&course[0], (_, Call::Open { .. }, 0, _)));
        }
    }

    /// Whether a bench has undone steps.
    fn has_undone(state: &State, bench: usize) -> bool {
        sound(state).is_some_and(|sound| sound.records(bench).len() > state.benches.each[bench].standing)
    }

    #[test]
    fn gaps_are_closed_and_marks_are_dropped() {
        let lists: Vec<List> = opened(1, SMALL, 500).collect();
        let mut counts = [0; 6];
        for (before, call, number, after) in lists.iter().flat_map(course) {
            let Call::Of { bench, turn: Turn::Replace { .. } } = call else { continue };
            counts[0] += usize::from(number == 20);
            if bench > 1 {
                continue;
            }
            let drops = number == 0 && has_undone(&before, bench);
            // The other's undone steps stay, and what stood behind the gap is moved.
            counts[1] += usize::from(drops && has_undone(&before, 1 - bench));
            counts[2] += usize::from(drops && after.history[..4] != before.history[..4] && before.benches.used > 30);
            counts[3] += usize::from(number == 12 && has_undone(&before, 1 - bench));
            let marks = [before, after].map(|state| state.benches.each[bench].saved);
            counts[4] += usize::from(marks[0].is_some() && marks[1].is_none());
            counts[5] += usize::from(number == 12);
        }
        assert!(counts.iter().all(|&count| count >= 20), "{counts:?}");
    }

    #[test]
    fn most_benches_made_by_hand_are_sound() {
        let count = made(1, 1_000).filter(|list| sound(&list.start).is_some()).count();
        assert!((500..950).contains(&count), "{count}");
    }

    #[test]
    fn calls_by_themselves_are_accepted_now_and_then() {
        for sort in [Sort::Open, Sort::Replace, Sort::Undo, Sort::Redo, Sort::Save] {
            let is_accepted = |list: &List| match &list.moves[..] {
                [Move::Call(call)] => left(&list.start, call, &vec![0; call.room()]).answer.number == 0,
                _ => panic!("one call"),
            };
            let accepted = alone(1, sort, 1_000).filter(is_accepted).count();
            assert!((50..950).contains(&accepted), "{accepted}");
        }
        let asked: Vec<_> = states(1, 1_000).map(|list| ask(&list.start, 1)).collect();
        let accepted = asked.iter().filter(|asked| asked.answer.number == 0).count();
        let unchanged = asked.iter().filter(|asked| asked.unchanged).count();
        assert!((200..950).contains(&accepted) && (50..accepted - 50).contains(&unchanged), "{accepted}, {unchanged}");
    }
}
