//! Pages with the mark at every number that it might have: at each word of the history, just past it, far beyond it,
//! and none.

use super::draft::Draft;
use super::{made, seeded, Change, List};
use crate::rng::Rng;
use crate::second::page::State;
use crate::second::Kind;

/// So many pages, half of them made by hand and half opened and edited; each with every mark, and a call of each sort.
pub fn lists(seed: u64, kind: Kind, count: usize) -> impl Iterator<Item = List> {
    let mut rng = Rng::new(seed, &format!("marks {}", kind.name()));
    (0..count).flat_map(move |number| {
        let draft = if number % 2 == 0 { made::draft(&mut rng, kind) } else { seeded::edited(&mut rng, kind) };
        let marked = |saved| marked(&mut rng, &draft, saved);
        every_mark(&draft.state).map(marked).collect::<Vec<List>>()
    })
}

fn marked(rng: &mut Rng, draft: &Draft, saved: Option<usize>) -> List {
    let mut draft = draft.clone();
    draft.change_by(Change::Saved(saved));
    draft.add_each(rng);
    draft.list
}

/// All marks up to a little past the history; larger ones, of which some are at the end of a record if they are cut off
/// at 32 bits, or if something is added to them; and none.
fn every_mark(state: &State) -> impl Iterator<Item = Option<usize>> {
    let (used, done) = (state.page.used, state.page.done);
    let cut_off = [1 << 32, (1 << 32) + used, (1 << 32) + done, 1 << 31, (1 << 32) - 1];
    let largest = [usize::MAX / 2, usize::MAX / 2 + 1, usize::MAX - 3, usize::MAX - 2, usize::MAX - 1];
    (0..state.history.len() + 3).chain(cut_off).chain(largest).map(Some).chain([None])
}

#[cfg(test)]
mod tests {
    use super::*;
    use crate::calls::Move;
    use crate::second::page::{ask, left, sound, Page};

    /// The state that a list has before the mark is changed, the mark, and what the question then gives.
    fn asked(list: &List) -> (State, Option<usize>, u32) {
        let mut state = list.start.clone();
        for item in &list.moves {
            match item {
                Move::Call(call) => state = left(&state, call, &vec![0; call.room()]).state,
                Move::Change(Change::Saved(saved)) => {
                    let marked = State { page: Page { saved: *saved, ..state.page }, ..state.clone() };
                    return (state, *saved, ask(&marked).answer.number);
                }
                Move::Change(_) | Move::Read(_) => panic!("another change"),
            }
        }
        panic!("no mark");
    }

    #[test]
    fn only_none_and_ends_of_records_are_sound() {
        for kind in Kind::ALL {
            for list in lists(1, kind, 40) {
                let (state, saved, number) = asked(&list);
                let unmarked = State { page: Page { saved: None, ..state.page }, ..state.clone() };
                let Some(sound) = sound(&unmarked) else { continue };
                // Where the records end, by the counts in the words alone.
                let mut ends = vec![0];
                while ends[ends.len() - 1] < state.page.used {
                    let at = ends[ends.len() - 1];
                    ends.push(at + 3 + state.history[at + 1] as usize + state.history[at + 2] as usize);
                }
                assert_eq!(ends.len(), 1 + sound.standing.len() + sound.undone.len());
                let fits = saved.is_none_or(|mark| ends.contains(&mark));
                assert_eq!(number, if fits { 0 } else { 14 });
            }
        }
    }
}
