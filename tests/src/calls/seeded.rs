//! Seeded lists of calls.

use super::draft::Draft;
use super::{blank, made, List, Sort};
use crate::rng::Rng;
use crate::second::Kind;
use crate::texts;

/// The greatest buffers of a list, and how often calls are added to it.
#[derive(Clone, Copy)]
pub struct Size {
    cells: usize,
    words: usize,
    turns: usize,
}

pub const SMALL: Size = Size { cells: 40, words: 60, turns: 14 };
/// For many steps on a short text.
const SHORT: Size = Size { cells: 10, words: 200, turns: 20 };
pub const LARGE: Size = Size { cells: 600, words: 900, turns: 30 };

/// So many lists of calls after an accepted open.
pub fn opened(seed: u64, kind: Kind, size: Size, count: usize) -> impl Iterator<Item = List> {
    seeded(seed, format!("opened {} {}", kind.name(), size.cells), count, move |rng| {
        let mut draft = open(rng, kind, size);
        for _ in 0..rng.between(1, size.turns) {
            draft.add_calls(rng);
        }
        draft
    })
}

/// So many lists of calls, keepings and readings after an accepted open.
pub fn kept(seed: u64, kind: Kind, size: Size, count: usize) -> impl Iterator<Item = List> {
    seeded(seed, format!("kept {} {}", kind.name(), size.cells), count, move |rng| {
        let mut draft = open(rng, kind, size);
        for _ in 0..rng.between(1, size.turns) {
            draft.add_actions(rng);
        }
        // Another text is opened, and then a file of the first is read.
        if rng.one_in(8) {
            draft.arrived = fitting(rng, kind, draft.state.text.len());
            draft.add_open();
            for _ in 0..rng.between(1, size.turns) {
                draft.add_actions(rng);
            }
        }
        draft
    })
}

/// So many lists of calls and squeezes after an accepted open of a short text; a few keep it in files, and read them.
pub fn squeezed(seed: u64, kind: Kind, count: usize) -> impl Iterator<Item = List> {
    seeded(seed, format!("squeezed {}", kind.name()), count, move |rng| stepped(rng, kind))
}

/// A draft in which a short text is opened and edited in many steps, of which some are squeezed.
pub(super) fn stepped(rng: &mut Rng, kind: Kind) -> Draft {
    let mut draft = open(rng, kind, SHORT);
    for _ in 0..rng.between(4, SHORT.turns) {
        match rng.below(10) {
            0..=2 => draft.add_some(rng, Sort::Squeeze, 2),
            3 => draft.add_actions(rng),
            4..=6 => draft.add_some(rng, Sort::Replace, 4),
            _ => draft.add_calls(rng),
        }
    }
    draft
}

/// So many lists of calls and squeezes on pages made by hand, on which undoing need not give back what was there.
pub fn squeezed_made(seed: u64, kind: Kind, count: usize) -> impl Iterator<Item = List> {
    seeded(seed, format!("squeezed made {}", kind.name()), count, move |rng| {
        let mut draft = made::stepped(rng, kind);
        for _ in 0..rng.between(1, 8) {
            match rng.below(4) {
                0 => draft.add_calls(rng),
                1 => draft.add_some(rng, Sort::Undo, 3),
                _ => draft.add_some(rng, Sort::Squeeze, 2),
            }
        }
        draft
    })
}

/// So many lists in which calls are made on a page that was opened, edited, and then changed by hand.
pub fn changed(seed: u64, kind: Kind, count: usize) -> impl Iterator<Item = List> {
    seeded(seed, format!("changed {}", kind.name()), count, move |rng| {
        let mut draft = open(rng, kind, SMALL);
        for _ in 0..rng.below(8) {
            draft.add_calls(rng);
        }
        for _ in 0..rng.pick(&[1, 1, 1, 2, 3]) {
            draft.add_change(rng);
        }
        draft.add_each(rng);
        if rng.one_in(4) {
            draft.add_open();
            draft.add_each(rng);
        }
        draft
    })
}

/// So many lists of calls on pages made by hand.
pub fn made(seed: u64, kind: Kind, count: usize) -> impl Iterator<Item = List> {
    seeded(seed, format!("made {}", kind.name()), count, move |rng| {
        let mut draft = made::draft(rng, kind);
        draft.add_each(rng);
        for _ in 0..rng.below(5) {
            draft.add_calls(rng);
        }
        draft
    })
}

/// So many calls of a sort, each by itself: on a page that was opened and edited, that was made by hand, or of any
/// numbers; changed by hand or not.
pub fn alone(seed: u64, sort: Sort, count: usize) -> impl Iterator<Item = List> {
    let mut rng = Rng::new(seed, "calls by themselves");
    (0..count).map(move |_| {
        let kind = if let Sort::Open(kind) = sort { kind } else { rng.pick(&Kind::ALL) };
        let draft = match sort {
            Sort::Squeeze => stepped_page(&mut rng, kind),
            _ => some_page(&mut rng, kind),
        };
        draft.alone(&mut rng, sort)
    })
}

/// A page that most often has many steps.
fn stepped_page(rng: &mut Rng, kind: Kind) -> Draft {
    match rng.below(4) {
        0..=1 => made::stepped(rng, kind),
        2 => stepped(rng, kind),
        _ => some_page(rng, kind),
    }
}

/// So many of the pages that such calls are made on, with no call.
pub fn pages(seed: u64, count: usize) -> impl Iterator<Item = List> {
    let mut rng = Rng::new(seed, "pages by themselves");
    (0..count).map(move |_| {
        let kind = rng.pick(&Kind::ALL);
        List { start: some_page(&mut rng, kind).state, moves: Vec::new() }
    })
}

pub(super) fn some_page(rng: &mut Rng, kind: Kind) -> Draft {
    let mut draft = match rng.below(4) {
        0..=1 => edited(rng, kind),
        2 => made::draft(rng, kind),
        _ => made::any(rng, kind),
    };
    for _ in 0..rng.pick(&[0, 0, 1, 2]) {
        draft.add_change(rng);
    }
    draft
}

/// A draft in which a page is opened and edited.
pub(super) fn edited(rng: &mut Rng, kind: Kind) -> Draft {
    let size = if rng.one_in(4) { LARGE } else { SMALL };
    let mut draft = open(rng, kind, size);
    for _ in 0..rng.below(6) {
        draft.add_calls(rng);
    }
    draft
}

fn seeded(seed: u64, purpose: String, count: usize, draft: impl Fn(&mut Rng) -> Draft) -> impl Iterator<Item = List> {
    let mut rng = Rng::new(seed, &purpose);
    (0..count).map(move |_| draft(&mut rng).list)
}

/// A draft with an accepted open.
fn open(rng: &mut Rng, kind: Kind, size: Size) -> Draft {
    let (cells, words) = (rng.between(0, size.cells), rng.between(0, size.words));
    let mut draft = Draft::new(blank(cells, words), kind, fitting(rng, kind, cells));
    draft.add_open();
    draft
}

/// A text that is read into at most so many cells.
pub(super) fn fitting(rng: &mut Rng, kind: Kind, cells: usize) -> Vec<u8> {
    loop {
        let length = rng.below(2 * cells + 4);
        let text = (texts::of_kind(kind).whole)(rng, length);
        if kind.read(&text).is_ok_and(|reading| reading.len() <= cells) {
            return text;
        }
    }
}

#[cfg(test)]
mod tests {
    use super::*;
    use crate::calls::Move;
    use crate::second::page::{ask, left, sound, Page};
    use crate::second::{page_file, Call};

    #[test]
    fn lists_start_with_an_accepted_open() {
        for kind in Kind::ALL {
            for list in opened(1, kind, SMALL, 300).chain(opened(1, kind, LARGE, 20)) {
                let Some(Move::Call(call @ Call::Open { .. })) = list.moves.first() else { panic!("no open") };
                assert_eq!(left(&list.start, call, &[]).answer.number, 0);
            }
        }
    }

    #[test]
    fn marks_are_set_dropped_and_left_behind() {
        for kind in Kind::ALL {
            let lists: Vec<List> = opened(1, kind, SMALL, 500).collect();
            // Lists that come to a page as it was saved, to one that has steps done since, to one that has steps undone
            // since, to one with no mark, and back to one that was left behind.
            let meanings: [fn(&Page, &Page) -> bool; 5] = [
                |_, after| after.done > 0 && after.saved == Some(after.done),
                |_, after| after.saved.is_some_and(|mark| 0 < mark && mark < after.done),
                |_, after| after.saved > Some(after.done),
                |before, after| before.saved.is_some() && after.saved.is_none(),
                |before, after| {
                    before.saved == after.saved && before.done != after.done && after.saved == Some(after.done)
                },
            ];
            for (number, meaning) in meanings.into_iter().enumerate() {
                let count =
                    lists.iter().filter(|list| pages_of(list).windows(2).any(|two| meaning(&two[0], &two[1]))).count();
                assert!(count >= 50, "{number}: {count}");
            }
        }
    }

    /// The page after each call of a list.
    fn pages_of(list: &List) -> Vec<Page> {
        let mut state = list.start.clone();
        let mut pages = Vec::new();
        for item in &list.moves {
            let Move::Call(call) = item else { panic!("a change") };
            state = left(&state, call, &vec![0; call.room()]).state;
            pages.push(state.page);
        }
        pages
    }

    #[test]
    fn files_are_read_again_and_again() {
        for kind in Kind::ALL {
            let mut counts = [0; 5];
            for list in kept(1, kind, SMALL, 500) {
                let (mut state, mut files) = (list.start.clone(), Vec::new());
                for item in &list.moves {
                    match item {
                        Move::Call(call) => {
                            let left = left(&state, call, &vec![0; call.room()]);
                            files.extend(left.file(call));
                            state = left.state;
                        }
                        Move::Read(reading) => {
                            let (buffers, arrived) = reading.buffers();
                            let file = reading.file(&files).expect("a file");
                            let read = page_file::left(file, &buffers, &arrived);
                            let accepted = read.answer.number == 0;
                            // The last file, an earlier one, one that leads to another page, and refusals.
                            counts[0] += usize::from(accepted && reading.before == 0);
                            counts[1] += usize::from(accepted && reading.before > 0);
                            counts[2] += usize::from(accepted && read.state.page != state.page);
                            counts[3] += usize::from(read.answer.number == 9);
                            counts[4] += usize::from(read.answer.number == 14);
                            state = if accepted { read.state } else { state };
                        }
                        Move::Change(_) => panic!("a change"),
                    }
                }
            }
            assert!(counts.iter().all(|&count| count >= 5), "{counts:?}");
        }
    }

    #[test]
    fn most_pages_made_by_hand_are_sound() {
        for kind in Kind::ALL {
            let count = made(1, kind, 1_000).filter(|list| sound(&list.start).is_some()).count();
            assert!((600..950).contains(&count), "{count}");
        }
    }

    #[test]
    fn calls_by_themselves_are_accepted_now_and_then() {
        let opens = Kind::ALL.map(Sort::Open);
        let others = [Sort::Replace, Sort::Undo, Sort::Redo, Sort::Save, Sort::Keep, Sort::Squeeze];
        for sort in opens.into_iter().chain(others) {
            let is_accepted = |list: &List| match &list.moves[..] {
                [Move::Call(call)] => left(&list.start, call, &vec![0; call.room()]).answer.number == 0,
                _ => panic!("one call"),
            };
            let accepted = alone(1, sort, 1_000).filter(is_accepted).count();
            assert!((50..950).contains(&accepted), "{accepted}");
        }
        let asked: Vec<_> = pages(1, 1_000).map(|list| ask(&list.start)).collect();
        let accepted = asked.iter().filter(|asked| asked.answer.number == 0).count();
        let unchanged = asked.iter().filter(|asked| asked.unchanged).count();
        assert!((200..950).contains(&accepted) && (50..accepted - 50).contains(&unchanged), "{accepted}, {unchanged}");
    }
}
