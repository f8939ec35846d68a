//! RFC 822's notation: "A / B" for alternatives, "A B" for a sequence, "*A" for any number, "[A]" for one or none.

use std::iter;

pub enum Syntax {
    /// One byte, of those that pass a test.
    Byte(fn(u8) -> bool),
    Or(Vec<Syntax>),
    Then(Vec<Syntax>),
    Many(Box<Syntax>),
    Optional(Box<Syntax>),
}

/// A / B / ..
pub fn or(parts: impl IntoIterator<Item = Syntax>) -> Syntax {
    Syntax::Or(parts.into_iter().collect())
}

/// A B ..
pub fn then(parts: impl IntoIterator<Item = Syntax>) -> Syntax {
    Syntax::Then(parts.into_iter().collect())
}

/// *A
pub fn many(part: Syntax) -> Syntax {
    Syntax::Many(Box::new(part))
}

/// [A]
pub fn optional(part: Syntax) -> Syntax {
    Syntax::Optional(Box::new(part))
}

/// What some bytes may follow, laid out: the places of the syntax that take a byte each, by numbers, and which of them
/// may stand behind which. Bytes follow it if they can be taken by places, one behind the other, from one that may be
/// the first to one that may be the last. No byte is looked at twice, so that texts of any length can be asked about.
pub struct Laid {
    /// By byte: the places that take it.
    takes: Vec<Places>,
    /// By place: those that may stand directly behind it.
    behind: Vec<Places>,
    whole: Part,
}

/// A set of places: a bit for each.
type Places = u64;

/// A part of a syntax: the places that may be its first and its last, and whether it may be empty.
#[derive(Clone, Copy)]
struct Part {
    first: Places,
    last: Places,
    empty: bool,
}

const NOTHING: Part = Part { first: 0, last: 0, empty: true };

impl Laid {
    pub fn new(syntax: &Syntax) -> Laid {
        let mut laid = Laid { takes: vec![0; 256], behind: vec![], whole: NOTHING };
        laid.whole = laid.lay(syntax);
        laid
    }

    /// Whether the bytes follow the syntax.
    pub fn is_followed_by(&self, bytes: &[u8]) -> bool {
        let (mut next, mut taken) = (self.whole.first, None);
        for &byte in bytes {
            let here = next & self.takes[usize::from(byte)];
            next = places(here).fold(0, |next, place| next | self.behind[place]);
            taken = Some(here);
        }
        taken.map_or(self.whole.empty, |last| last & self.whole.last != 0)
    }

    fn lay(&mut self, syntax: &Syntax) -> Part {
        match syntax {
            Syntax::Byte(test) => self.lay_byte(*test),
            Syntax::Or(parts) => {
                let parts: Vec<Part> = parts.iter().map(|part| self.lay(part)).collect();
                let any = |places: fn(&Part) -> Places| parts.iter().map(places).fold(0, |all, more| all | more);
                Part {
                    first: any(|part| part.first),
                    last: any(|part| part.last),
                    empty: parts.iter().any(|part| part.empty),
                }
            }
            Syntax::Then(parts) => parts.iter().fold(NOTHING, |front, part| {
                let part = self.lay(part);
                self.lay_behind(front.last, part.first);
                Part {
                    first: front.first | if front.empty { part.first } else { 0 },
                    last: part.last | if part.empty { front.last } else { 0 },
                    empty: front.empty && part.empty,
                }
            }),
            Syntax::Many(part) => {
                let part = self.lay(part);
                self.lay_behind(part.last, part.first);
                Part { empty: true, ..part }
            }
            Syntax::Optional(part) => Part { empty: true, ..self.lay(part) },
        }
    }

    fn lay_byte(&mut self, test: fn(u8) -> bool) -> Part {
        let place: Places = 1 << self.behind.len();
        self.behind.push(0);
        for byte in (0..=255).filter(|&byte| test(byte)) {
            self.takes[usize::from(byte)] |= place;
        }
        Part { first: place, last: place, empty: false }
    }

    /// Each of these places may stand directly behind each of those.
    fn lay_behind(&mut self, front: Places, more: Places) {
        places(front).for_each(|place| self.behind[place] |= more);
    }
}

/// The places of a set, by their numbers.
fn places(set: Places) -> impl Iterator<Item = usize> {
    // The lowest bit is left out each time.
    let rest = iter::successors(Some(set), |set| Some(set & set.wrapping_sub(1)));
    rest.take_while(|&set| set != 0).map(|set| set.trailing_zeros() as usize)
}
