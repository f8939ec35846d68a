//! How long seeded texts and lists are.

use std::ops::RangeInclusive;

use crate::rng::Rng;
use crate::second::{LIMIT, LISTER_LIMIT};

/// Chooses a length.
pub type Length = fn(&mut Rng) -> usize;

/// At the limit, and a little under it.
pub const NEAR_LIMIT: RangeInclusive<usize> = LIMIT - 60..=LIMIT;

/// About what the limit was before order 10 of document 02. A text that is refused there would be by a limit that was
/// left behind.
pub const OLD_LIMIT: RangeInclusive<usize> = 65_535..=65_537;

/// How many seeded texts and lists of each sort there are near the limit and over it. They take long.
pub const LONG: usize = 6;

/// A little over the limit.
pub const OVER_LIMIT: RangeInclusive<usize> = LIMIT + 1..=LIMIT + 60;

/// One in two hundred is over 300.
pub fn mostly_short(rng: &mut Rng) -> usize {
    match rng.below(200) {
        0..=99 => rng.below(13),
        100..=169 => rng.below(100),
        170..=198 => rng.below(301),
        _ => rng.below(4_000),
    }
}

/// From none to a few hundred.
pub fn up_to_hundreds(rng: &mut Rng) -> usize {
    match rng.below(4) {
        0 => rng.below(4),
        1..=2 => rng.below(40),
        _ => rng.below(400),
    }
}

/// One in forty is near the listers' limit, on either side of it.
pub fn for_listers(rng: &mut Rng) -> usize {
    match rng.below(40) {
        0..=19 => rng.below(13),
        20..=33 => rng.below(100),
        34..=38 => rng.below(3_000),
        _ => rng.between(LISTER_LIMIT - 3, LISTER_LIMIT + 1),
    }
}

/// One among these; often the first or the last.
pub fn among(rng: &mut Rng, lengths: &RangeInclusive<usize>) -> usize {
    let (first, last) = (*lengths.start(), *lengths.end());
    match rng.below(4) {
        0 => first,
        1 => last,
        _ => rng.between(first, last),
    }
}

#[cfg(test)]
mod tests {
    use super::*;

    #[test]
    fn few_lengths_are_over_300() {
        let mut rng = Rng::new(1, "lengths");
        let over = (0..10_000).filter(|_| mostly_short(&mut rng) > 300).count();
        assert!((10..100).contains(&over), "{over}");
    }

    #[test]
    fn the_ends_are_among_the_lengths() {
        let mut rng = Rng::new(1, "lengths");
        let lengths: Vec<usize> = (0..100).map(|_| among(&mut rng, &NEAR_LIMIT)).collect();
        assert!(lengths.iter().all(|length| NEAR_LIMIT.contains(length)));
        assert!(lengths.contains(&LIMIT) && lengths.contains(NEAR_LIMIT.start()));
    }
}
