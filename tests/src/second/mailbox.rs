//! Mailbox names, after order 1 of document 02. Quotations in comments are of that order.

use super::bits::{bits, number};
use super::reading::{self, first_fault, Cursor, Found};
use super::run::Run;
use super::{all_writable, within_limit, Answer, Complete, Elements, Steps};

const AMPERSAND: u32 = 0x26;

/// "bytes 32 to 126 stand for themselves": a unit that needs no run. The ampersand, as `&-`, needs none either.
fn is_printable(unit: u32) -> bool {
    (32..=126).contains(&unit)
}

/// The letters of runs in the order of their values: set B of document 01, but "`,` replaces `/`".
fn letters() -> impl Iterator<Item = u8> {
    (b'A'..=b'Z').chain(b'a'..=b'z').chain(b'0'..=b'9').chain([b'+', b','])
}

/// The value of a byte, if it is a letter of runs.
fn value(byte: u8) -> Option<usize> {
    letters().position(|letter| letter == byte)
}

/// Reads a name.
pub fn read(name: &[u8]) -> Elements<u32> {
    reading::read(find, Before::START, name)
}

/// Steps through a name.
pub fn steps(name: &[u8]) -> Steps {
    reading::steps(find, name, Cursor { at: 0, handed: 0, before: Before::START })
}

/// Steps from a cursor with these numbers, in the order of the C interface: "0 outside a run, 1 outside directly after
/// a run, 2 after '&', 3 after '&' directly after a run, else in a run" with so many bits that wait, and their value.
/// Any count is taken by sixteen.
pub fn steps_from(name: &[u8], numbers: &[u64]) -> Steps {
    let &[at, handed, shift, pending, value] = numbers else { panic!("five numbers") };
    let before = match shift {
        0 | 1 => Before { is_behind_run: shift == 1, open: None },
        2 | 3 => Before { is_behind_run: shift == 3, open: Some(Open::Sign) },
        _ => Before {
            is_behind_run: false,
            open: Some(Open::Run(bits(value as usize, pending as usize % 16).collect())),
        },
    };
    reading::steps(find, name, Cursor { at: at as usize, handed: handed as usize, before })
}

/// Whether a name begins with a run, and whether it ends with one.
pub fn begins_in_run(name: &[u8]) -> bool {
    matches!(cut(name, 0, None).first(), Some(Part::Run(_)))
}

pub fn ends_in_run(name: &[u8]) -> bool {
    matches!(cut(name, 0, None).last(), Some(Part::Run(_)))
}

/// What of the name before a place still matters there.
struct Before {
    /// Whether a run stands directly before what is open, or before the place.
    is_behind_run: bool,
    open: Option<Open>,
}

/// What is open at a place.
enum Open {
    Sign,
    /// A run, with the bits that wait for a full sixteen.
    Run(Vec<usize>),
}

impl Before {
    const START: Before = Before { is_behind_run: false, open: None };
}

fn find(name: &[u8], at: usize, before: Before) -> Found {
    let Before { is_behind_run, open } = before;
    let parts = cut(name, at, open);
    let in_parts = parts.iter().flat_map(|part| part.faults(name));
    // "17 (..) for a run directly after a run at its first letter"
    let directly_after = parts.windows(2).filter_map(|two| match two {
        [Part::Run(_), next] => Some(next),
        _ => None,
    });
    let after_runs = parts.first().filter(|_| is_behind_run).into_iter().chain(directly_after);
    let needless = after_runs.filter_map(|part| match part {
        Part::Run(run) => Some(Answer { number: 17, place: run.start }),
        _ => None,
    });
    Found {
        cells: parts.iter().flat_map(Part::cells).collect(),
        fault: first_fault(name, at, in_parts.chain(needless)),
    }
}

/// A part of a name that is read by itself.
enum Part {
    /// A byte outside runs.
    Direct {
        byte: u8,
        place: usize,
    },
    /// `&-`, and the place of its `-`.
    Ampersand {
        end: usize,
    },
    /// `&` with neither a letter nor `-` after it, and where that is noticed.
    BareSign {
        end: usize,
    },
    Run(Run),
}

/// Cuts a name into its parts from a place on, from left to right.
fn cut(name: &[u8], at: usize, open: Option<Open>) -> Vec<Part> {
    let mut parts = Vec::new();
    let mut place = at;
    let mut open = open;
    // What is open is judged at the end too.
    while place < name.len() || open.is_some() {
        let (part, length) = first_part(&name[place..], place, open.take());
        parts.push(part);
        place += length;
    }
    parts
}

/// The first part of what is left of a name from this place on, and how many bytes it takes from there. After a bare
/// sign and a run that does not close nothing matters, and all that is left is taken.
fn first_part(rest: &[u8], place: usize, open: Option<Open>) -> (Part, usize) {
    let waiting = match open {
        None if rest[0] == b'&' => {
            let (part, length) = first_part(&rest[1..], place + 1, Some(Open::Sign));
            return (part, 1 + length);
        }
        None => return (Part::Direct { byte: rest[0], place }, 1),
        Some(Open::Sign) => None,
        Some(Open::Run(bits)) => Some(bits),
    };
    let letters: Vec<usize> = rest.iter().map_while(|&byte| value(byte)).collect();
    // "every run closes with `-`"
    let is_closed = rest.get(letters.len()) == Some(&b'-');
    let part = match (waiting, letters.is_empty(), is_closed) {
        (None, true, true) => Part::Ampersand { end: place },
        (None, true, false) => Part::BareSign { end: place },
        (waiting, ..) => Part::Run(Run::new(&waiting.unwrap_or_default(), &letters, place)),
    };
    (part, if is_closed { letters.len() + 1 } else { rest.len() })
}

impl Part {
    /// The cells of this part, where no fault stands before them.
    fn cells(&self) -> Vec<Complete> {
        match self {
            Part::Direct { byte, place } => vec![Complete::of_last(1, place + 1, u32::from(*byte))],
            // "`&-` is the ampersand"; order 2: "the two bytes of (..) `&-`"
            Part::Ampersand { end } => vec![Complete::of_last(2, end + 1, AMPERSAND)],
            Part::BareSign { .. } => vec![],
            Part::Run(run) => run.units().collect(),
        }
    }

    /// The faults in this part of a name, but for high bytes.
    fn faults(&self, name: &[u8]) -> Vec<Answer> {
        match self {
            Part::Direct { byte, place } if !is_printable(u32::from(*byte)) => {
                vec![Answer { number: 3, place: *place }]
            }
            Part::Direct { .. } | Part::Ampersand { .. } => vec![],
            Part::BareSign { end } => vec![Answer { number: 2, place: *end }],
            // "17 (needless shift) for a printable unit in a run at the byte completing it"
            Part::Run(run) => {
                let printable = run.units().filter(|unit| is_printable(unit.cell));
                let needless = printable.map(|unit| Answer { number: 17, place: unit.end - 1 });
                needless.chain(faults_behind(run, name)).collect()
            }
        }
    }
}

/// The faults at the byte behind the letters of a run, or at the end of the name.
fn faults_behind(run: &Run, name: &[u8]) -> Vec<Answer> {
    let place = run.end();
    let numbers = match name.get(place) {
        // "4 only at the closing `-`", and 17 "at the closing `-`, after 4, for six or more left-over bits"
        Some(b'-') => [(run.left_over().contains(&1), 4), (run.left_over().len() >= 6, 17)].to_vec(),
        // "3 for any other byte inside a run"
        Some(_) => [(true, 3)].to_vec(),
        // "7 for a run still open at the end"
        None => [(true, 7)].to_vec(),
    };
    numbers.into_iter().filter(|(is_given, _)| *is_given).map(|(_, number)| Answer { number, place }).collect()
}

/// Writes cells as a name.
pub fn write(cells: &[u32]) -> Elements<u8> {
    within_limit(cells.len())?;
    // The units of document 01, "0 to 65535".
    all_writable(cells, |cell| cell <= 65_535)?;
    let stretches = cells.chunk_by(|&left, &right| is_printable(left) == is_printable(right));
    Ok(stretches.flat_map(|stretch| if is_printable(stretch[0]) { direct(stretch) } else { run(stretch) }).collect())
}

/// Printable units: each as itself, but "`&-` is the ampersand".
pub fn direct(units: &[u32]) -> Vec<u8> {
    let spell = |&unit: &u32| if unit == AMPERSAND { b"&-".to_vec() } else { unit.to_be_bytes()[3..].to_vec() };
    units.iter().flat_map(spell).collect()
}

/// One run for all these units, with fewest zero bits as filler.
pub fn run(units: &[u32]) -> Vec<u8> {
    let all: Vec<usize> = units.iter().flat_map(|&unit| bits(unit as usize, 16)).collect();
    let spelled = all.chunks(6).map(|six| {
        let filled: Vec<usize> = six.iter().copied().chain([0; 5]).take(6).collect();
        letters().nth(number(&filled)).expect("six bits")
    });
    [b'&'].into_iter().chain(spelled).chain([b'-']).collect()
}

#[cfg(test)]
mod tests {
    use super::*;
    use crate::texts;

    /// "A name has one spelling only": an accepted name is what its cells are written as.
    #[test]
    fn accepted_names_are_written_as_they_are() {
        let source = &texts::mailbox::SOURCE;
        let seeded = source.texts(1, "names", 20_000, |rng| rng.below(100));
        let short = source.alphabets.iter().flat_map(|alphabet| alphabet.texts());
        let mut accepted = 0;
        for name in seeded.chain(short) {
            if let Ok(cells) = read(&name) {
                assert_eq!(write(&cells), Ok(name));
                accepted += 1;
            }
        }
        assert!(accepted > 10_000, "{accepted}");
    }

    #[test]
    fn every_byte_is_a_letter_or_not() {
        assert_eq!(letters().count(), 64);
        assert_eq!((0..=255).filter(|&byte| value(byte).is_some()).count(), 64);
        assert_eq!((value(b'+'), value(b','), value(b'/')), (Some(62), Some(63), None));
    }
}
