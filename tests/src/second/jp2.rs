//! ISO-2022-JP-2, after the section "JP-2" of document 01.

use super::reading::{self, first_fault, Cursor, Found};
use super::{all_writable, refuse, within_limit, Answer, Complete, Elements, Outcome, Steps};

const ESC: u8 = 0x1B;

/// ESC N
const SHIFT: &[u8] = b"\x1BN";

/// Where a set is designated to.
#[derive(Clone, Copy, Debug, PartialEq, Eq)]
pub enum To {
    G0,
    G2,
}

/// A set with its registration number.
#[derive(Debug, PartialEq, Eq)]
pub struct Set {
    pub number: u32,
    pub designation: &'static [u8],
    pub to: To,
}

/// The table of document 01.
pub static SETS: [Set; 9] = [
    Set { number: 6, designation: b"\x1B(B", to: To::G0 },
    Set { number: 14, designation: b"\x1B(J", to: To::G0 },
    Set { number: 42, designation: b"\x1B$@", to: To::G0 },
    Set { number: 87, designation: b"\x1B$B", to: To::G0 },
    Set { number: 58, designation: b"\x1B$A", to: To::G0 },
    Set { number: 149, designation: b"\x1B$(C", to: To::G0 },
    Set { number: 159, designation: b"\x1B$(D", to: To::G0 },
    Set { number: 100, designation: b"\x1B.A", to: To::G2 },
    Set { number: 126, designation: b"\x1B.F", to: To::G2 },
];

pub static ASCII: &Set = &SETS[0];

impl Set {
    pub fn has_pairs(&self) -> bool {
        self.to == To::G0 && has_pairs(self.number)
    }
}

/// Whether the set of this number, in G0, has pairs: "With 6 or 14 in G0, (..) single cells." "With another set, a cell
/// is two bytes."
fn has_pairs(number: u32) -> bool {
    ![6, 14].contains(&number)
}

/// "A JP-2 cell is registration number times 65536, plus the code as sent (pairs: first byte times 256 plus second)."
pub fn cell(set: &Set, code: &[u8]) -> u32 {
    numbered(set.number, code)
}

fn numbered(number: u32, code: &[u8]) -> u32 {
    65_536 * number + code.iter().fold(0, |code, &byte| 256 * code + u32::from(byte))
}

/// Reads a text.
pub fn read(text: &[u8]) -> Elements<u32> {
    reading::read(find, Before::START, text)
}

/// Document 02, order 12: "It takes up to 512 bytes".
pub const PLAIN_LIMIT: usize = 512;

/// Reads a text as order 12's reader is to: "Refusals: 16 at 512, the rest as the main reader's."
pub fn read_plain(text: &[u8]) -> Elements<u32> {
    if text.len() > PLAIN_LIMIT {
        return refuse(16, PLAIN_LIMIT);
    }
    read(text)
}

/// Steps through a text.
pub fn steps(text: &[u8]) -> Steps {
    reading::steps(find, text, Cursor { at: 0, handed: 0, before: Before::START })
}

/// Steps from a cursor with these numbers, in the order of the C interface: the sets in G0 and G2 by number, "0: none",
/// and the phase, "0 between cells, 1 after a CR, 2 after the first byte of a pair, 3 after ESC N, 4, 5 or 6 after ESC
/// and none, one or two bytes more", with its bytes. A phase above 6 is taken for 6.
pub fn steps_from(text: &[u8], numbers: &[u64]) -> Steps {
    let &[at, handed, g0, g2, phase, first, second] = numbers else { panic!("seven numbers") };
    let more = [first as u8, second as u8];
    let open = match phase {
        0 => Open::Nothing,
        1 => Open::Return,
        2 => Open::Pair(more[0]),
        3 => Open::Shift,
        phase => Open::Escape([&[ESC], &more[..phase.min(6) as usize - 4]].concat()),
    };
    let before = Before { sets: InForce { g0: g0 as u32, g2: (g2 != 0).then_some(g2 as u32) }, open };
    reading::steps(find, text, Cursor { at: at as usize, handed: handed as usize, before })
}

/// What of the text before a place still matters there.
struct Before {
    sets: InForce,
    open: Open,
}

/// What is open at a place.
enum Open {
    Nothing,
    /// A CR stands directly before.
    Return,
    /// A pair, with its first byte.
    Pair(u8),
    /// ESC N
    Shift,
    /// An escape, with its bytes so far.
    Escape(Vec<u8>),
}

impl Before {
    /// "A text starts with ASCII in G0 and nothing in G2."
    const START: Before = Before { sets: AT_START, open: Open::Nothing };
}

fn find(text: &[u8], at: usize, before: Before) -> Found {
    let (parts, at_end) = follow(before.sets, cut(text, at, before.open));
    let faults = parts.iter().flat_map(|part| part.faults(text.len()));
    Found {
        cells: parts.iter().flat_map(Part::cells).collect(),
        fault: first_fault(text, at, faults.chain(at_end.fault(text.len()))),
    }
}

/// What a text is cut into.
enum Token<'a> {
    /// An escape of the table.
    Designation(&'static Set),
    /// ESC N.
    Shift,
    /// The byte after ESC N, if the text does not end there.
    Shifted(Option<u8>),
    /// An escape that is neither: the next byte does not fit, or the text ends.
    Misfit,
    /// The second byte of a pair that a cursor stands in, if the text does not end there, and the first.
    Second(u8, Option<u8>),
    /// The longest stretch of bytes other than ESC, and whether a CR stands directly before it.
    Stretch(&'a [u8], bool),
}

/// Cuts a text into tokens from a place on, from left to right, each with the place just past it; that of a misfit is
/// of the first byte that fits none.
fn cut(text: &[u8], at: usize, open: Open) -> Vec<(usize, Token<'_>)> {
    let mut tokens = Vec::new();
    let (mut place, mut open) = (at, open);
    // What is open is judged at the end too.
    while place < text.len() || !matches!(open, Open::Nothing | Open::Return) {
        let (token, length) = first_token(&text[place..], open);
        let is_misfit = matches!(token, Token::Misfit);
        open = if matches!(token, Token::Shift) { Open::Shift } else { Open::Nothing };
        place += length;
        tokens.push((place, token));
        // This is a fault: nothing after it matters.
        if is_misfit {
            break;
        }
    }
    tokens
}

/// The first token of what is left of a text, and how many bytes it takes from there.
fn first_token(rest: &[u8], open: Open) -> (Token<'_>, usize) {
    let next = rest.first().copied();
    let taken = usize::from(next.is_some());
    let is_after_return = matches!(open, Open::Return);
    match open {
        Open::Pair(first) => return (Token::Second(first, next), taken),
        Open::Shift => return (Token::Shifted(next), taken),
        Open::Escape(begun) => return escape(&begun, rest),
        Open::Nothing | Open::Return => {}
    }
    let stretch = rest.split(|&byte| byte == ESC).next().unwrap_or(rest);
    if stretch.is_empty() {
        return escape(b"", rest);
    }
    (Token::Stretch(stretch, is_after_return), stretch.len())
}

/// The escape with these bytes and then what is left of a text, and how many bytes it takes from there.
fn escape<'a>(begun: &[u8], rest: &[u8]) -> (Token<'a>, usize) {
    // No escape is longer than this, so what is behind it need not be looked at, or copied.
    let longest = SETS.iter().map(|set| set.designation.len()).max().unwrap_or(0).max(SHIFT.len());
    let all = [begun, &rest[..rest.len().min(longest)]].concat();
    // One that is complete before the next byte, as only a cursor made by hand has it, is none.
    let longer = |escape: &[u8]| escape.len() > begun.len();
    if longer(SHIFT) && all.starts_with(SHIFT) {
        return (Token::Shift, SHIFT.len() - begun.len());
    }
    match SETS.iter().find(|set| longer(set.designation) && all.starts_with(set.designation)) {
        Some(set) => (Token::Designation(set), set.designation.len() - begun.len()),
        None => (Token::Misfit, fitting(&all).saturating_sub(begun.len())),
    }
}

/// How many of these bytes begin some escape of the table or ESC N.
fn fitting(bytes: &[u8]) -> usize {
    let alike = |escape: &[u8]| escape.iter().zip(bytes).take_while(|(left, right)| left == right).count();
    SETS.iter().map(|set| set.designation).chain([SHIFT]).map(alike).max().unwrap_or(0)
}

/// The sets in force at a place of a text, by their numbers.
#[derive(Clone, Copy)]
struct InForce {
    g0: u32,
    g2: Option<u32>,
}

const AT_START: InForce = InForce { g0: 6, g2: None };

impl InForce {
    /// The sets in force after a token.
    fn after(self, token: &Token) -> InForce {
        match *token {
            Token::Designation(set) if set.to == To::G0 => InForce { g0: set.number, ..self },
            Token::Designation(set) => InForce { g2: Some(set.number), ..self },
            // "CR directly followed by LF clears G2. Either alone does not."
            Token::Stretch(bytes, is_after_return)
                if bytes.windows(2).any(|two| two == b"\r\n") || (is_after_return && bytes[0] == b'\n') =>
            {
                InForce { g2: None, ..self }
            }
            // "ESC N (..); G0 stays."
            _ => self,
        }
    }

    /// "A text ends with ASCII in G0." "8 | text ends with G0 not ASCII | text length"
    fn fault(self, end: usize) -> Option<Answer> {
        (self.g0 != ASCII.number).then_some(Answer { number: 8, place: end })
    }
}

/// A token, the place just past it, and the sets in force before it.
struct Part<'a> {
    end: usize,
    token: Token<'a>,
    sets: InForce,
}

/// Follows G0 and G2 through the tokens; gives also the sets in force at the end.
fn follow(at_start: InForce, tokens: Vec<(usize, Token<'_>)>) -> (Vec<Part<'_>>, InForce) {
    let mut sets = at_start;
    let mut parts = Vec::new();
    for (end, token) in tokens {
        let next = sets.after(&token);
        parts.push(Part { end, token, sets });
        sets = next;
    }
    (parts, sets)
}

impl Part<'_> {
    /// The cells of this part, where no fault stands before them. By order 2 of document 02 the bytes of one are "its
    /// own byte, its pair, (..) or ESC N and its byte, never a designation".
    fn cells(&self) -> Vec<Complete> {
        let InForce { g0, g2 } = self.sets;
        match self.token {
            // "ESC N and a byte of 32 to 127 is one cell of the G2 set, whichever G0 is."
            Token::Shifted(Some(byte)) => vec![Complete::of_last(3, self.end, numbered(g2.unwrap_or(0), &[byte]))],
            // "With another set, a cell is two bytes of 33 to 126."
            Token::Second(first, Some(second)) => vec![Complete::of_last(2, self.end, numbered(g0, &[first, second]))],
            Token::Stretch(bytes, _) if has_pairs(g0) => {
                let ends = (self.start(bytes) + 2..).step_by(2);
                let pairs = ends.zip(bytes.chunks_exact(2));
                pairs.map(|(end, pair)| Complete::of_last(2, end, numbered(g0, pair))).collect()
            }
            // "Bytes 33 to 126 carry the G0 number; 0 to 32 and 127 always carry 6."
            Token::Stretch(bytes, _) => {
                let carried = |byte| if (33..=126).contains(&byte) { g0 } else { ASCII.number };
                let ends = (self.start(bytes) + 1..).zip(bytes);
                ends.map(|(end, &byte)| Complete::of_last(1, end, numbered(carried(byte), &[byte]))).collect()
            }
            _ => vec![],
        }
    }

    /// Where a stretch of these bytes starts.
    fn start(&self, bytes: &[u8]) -> usize {
        self.end - bytes.len()
    }

    /// The faults in this part of a text with this end, but for high bytes.
    fn faults(&self, text_end: usize) -> Vec<Answer> {
        // "3 | byte that no rule allows there | that byte"
        let last_byte = vec![Answer { number: 3, place: self.end.saturating_sub(1) }];
        // "7 | text ends in an escape, in a pair or after ESC N | text length"
        let broken = |number| Answer { number: if self.end == text_end { 7 } else { number }, place: self.end };
        match self.token {
            Token::Designation(_) => vec![],
            // "5 | escape neither ESC N nor in the table | first byte that fits none"
            Token::Misfit => vec![broken(5)],
            // "6 | ESC N with nothing in G2 | the N"
            Token::Shift if self.sets.g2.is_none() => vec![Answer { number: 6, place: self.end - 1 }],
            Token::Shift | Token::Shifted(Some(32..)) | Token::Second(_, Some(33..=126)) => vec![],
            Token::Shifted(Some(_)) | Token::Second(_, Some(_)) => last_byte,
            Token::Shifted(None) | Token::Second(_, None) => vec![broken(7)],
            Token::Stretch(bytes, _) if has_pairs(self.sets.g0) => {
                let mut faults = self.forbidden(bytes, |byte| !(33..=126).contains(&byte));
                // "never broken by an escape": after an odd stretch comes an ESC, or the end.
                faults.extend((bytes.len() % 2 == 1).then(|| broken(3)));
                faults
            }
            // "bytes 0 to 127 but ESC, SI (15) and SO (14)"
            Token::Stretch(bytes, _) => self.forbidden(bytes, |byte| byte == 14 || byte == 15),
        }
    }

    /// "3 | byte that no rule allows there | that byte"
    fn forbidden(&self, bytes: &[u8], is_forbidden: fn(u8) -> bool) -> Vec<Answer> {
        let places = (self.start(bytes)..).zip(bytes).filter(|(_, &byte)| is_forbidden(byte));
        places.map(|(place, _)| Answer { number: 3, place }).collect()
    }
}

/// "Writable cells: 6 with 0 to 127 but 14, 15, 27; 14 with 33 to 126; the five pair sets with two bytes of 33 to 126;
/// 100 and 126 with 32 to 127."
pub fn is_writable(cell: u32) -> bool {
    let code = cell % 65_536;
    match cell / 65_536 {
        6 => code <= 127 && ![14, 15, 27].contains(&code),
        14 => (33..=126).contains(&code),
        42 | 58 | 87 | 149 | 159 => [code / 256, code % 256].iter().all(|byte| (33..=126).contains(byte)),
        100 | 126 => (32..=127).contains(&code),
        _ => false,
    }
}

/// Writes cells.
pub fn write(cells: &[u32]) -> Elements<u8> {
    within_limit(cells.len())?;
    all_writable(cells, is_writable)?;
    let spelled = (0..cells.len()).flat_map(|index| spell(&cells[..index], cells[index]));
    // "and returns to ASCII at the end if needed."
    let end = designation(cells, ASCII).iter().copied();
    Ok(spelled.chain(end).collect())
}

/// The set of a writable cell.
fn set_of(cell: u32) -> &'static Set {
    SETS.iter().find(|set| set.number == cell / 65_536).expect("a writable cell")
}

/// How a cell after these cells is written: its designation if that is needed, "directly before the cell", ESC N if it
/// is of a G2 set, and its code.
fn spell(before: &[u32], cell: u32) -> Vec<u8> {
    let set = set_of(cell);
    let shift = if set.to == To::G2 { SHIFT } else { b"" };
    let [.., high, low] = cell.to_be_bytes();
    let code = if set.has_pairs() { vec![high, low] } else { vec![low] };
    [designation(before, set), shift, &code].concat()
}

/// "The writer designates only when the set in force differs."
fn designation(before: &[u32], set: &Set) -> &'static [u8] {
    if in_force(before, set.to) == Some(set) {
        b""
    } else {
        set.designation
    }
}

/// The set that these cells, written, leave in force: that of the last of them that goes there.
fn in_force(before: &[u32], to: To) -> Option<&'static Set> {
    for end in (1..=before.len()).rev() {
        // "CR directly followed by LF clears G2."
        if to == To::G2 && before[..end].ends_with(&[cell(ASCII, b"\r"), cell(ASCII, b"\n")]) {
            return None;
        }
        let set = set_of(before[end - 1]);
        if set.to == to {
            return Some(set);
        }
    }
    match to {
        // "A text starts with ASCII in G0 and nothing in G2."
        To::G0 => Some(ASCII),
        To::G2 => None,
    }
}

/// Counts cells. "The tally of a list of JP-2 cells gives nine counts, one for each set in rising number."
pub fn tally(cells: &[u32]) -> Outcome<u32> {
    let mut numbers: Vec<u32> = SETS.iter().map(|set| set.number).collect();
    numbers.sort_unstable();
    let count = |number: u32| cells.iter().filter(|&&cell| cell / 65_536 == number).count() as u32;
    match within_limit(cells.len()).and_then(|()| all_writable(cells, is_writable)) {
        // "replace, undo and redo answer the new length, tally the number of cells."
        Ok(()) => Outcome {
            answer: Answer { number: 0, place: cells.len() },
            output: numbers.into_iter().map(count).collect(),
        },
        // "A refused tally has nine zeros."
        Err(answer) => Outcome { answer, output: vec![0; 9] },
    }
}

#[cfg(test)]
mod tests {
    use super::*;
    use crate::examples;

    #[test]
    fn counts_the_examples() {
        for example in examples::jp2::tallies().iter().flat_map(|group| &group.examples) {
            assert_eq!(tally(&example.input), example.expected, "{example}");
        }
        assert_eq!(tally(&vec![u32::MAX; 1_048_577]).answer, Answer { number: 16, place: 1_048_576 });
        assert_eq!(tally(&vec![cell(ASCII, b"a"); 1_048_576]).output, [1_048_576, 0, 0, 0, 0, 0, 0, 0, 0]);
    }
}
