//! Cursors made by hand, that no step need have given.

use std::ops::Range;

use crate::library::steps::{Cursor, Stepper};
use crate::rng::Rng;
use crate::texts::{lengths, Source};
use crate::trial::{show, without, Input};

/// A text, and a cursor that may be anything.
pub struct HandMade<C> {
    pub text: Vec<u8>,
    pub cursor: C,
}

impl<C: Cursor> Input for HandMade<C> {
    fn length(&self) -> usize {
        self.text.len()
    }

    fn without(&self, parts: Range<usize>) -> HandMade<C> {
        HandMade { text: without(&self.text, parts), cursor: self.cursor }
    }

    fn show(&self) -> String {
        format!("{} from {:?}", show(&self.text), self.cursor)
    }
}

/// So many texts, each with a cursor.
pub fn seeded<'a, C: Cursor>(
    stepper: &'a Stepper<C>,
    source: &'a Source,
    seed: u64,
    count: usize,
) -> impl Iterator<Item = HandMade<C>> + 'a {
    let mut rng = Rng::new(seed, "cursors");
    (0..count).map(move |_| {
        let length = lengths::mostly_short(&mut rng);
        let text = source.text(&mut rng, length);
        let cursor = cursor(&mut rng, stepper, &text);
        HandMade { text, cursor }
    })
}

/// A cursor that a few steps lead to, with some of its numbers changed, or all.
pub fn cursor<C: Cursor>(rng: &mut Rng, stepper: &Stepper<C>, text: &[u8]) -> C {
    let reached = (0..rng.below(6)).fold((stepper.start)(), |cursor, _| (stepper.step)(text, cursor).next);
    let mut numbers = reached.numbers();
    let one_in = rng.pick(&[1, 2, 4, 4]);
    for number in &mut numbers {
        if rng.one_in(one_in) {
            *number = changed(rng, *number, text.len());
        }
    }
    C::of_numbers(&numbers)
}

/// Another number: a small one, one that a rule tells apart, one near the length of the text, or a large one.
fn changed(rng: &mut Rng, number: u64, length: usize) -> u64 {
    match rng.below(9) {
        0 => 0,
        1 => rng.below(20) as u64,
        2 => number.wrapping_add(1),
        3 => rng.pick(&[6, 14, 42, 58, 87, 100, 126, 149, 159]),
        4 => rng.pick(b"\x1B$(.N@A\r\n\x80").into(),
        5 => rng.below(length + 2) as u64,
        6 => u64::MAX - rng.below(3) as u64,
        7 => 1 << rng.below(64),
        _ => rng.next(),
    }
}
