//! The page file, after orders 6 and 10 of document 02. A file is judged as a whole: what stands in its lines is read
//! without care, and it is a page file exactly if writing that down gives the file itself. Where a bad one fails is
//! asked of its beginnings: a beginning is good if some page file begins so, and one is made to show it.

use super::page::{all_within_limit, sound, Page, Sound, State};
use super::{refuse, Answer, Elements, Kind, LIMIT};

/// What a page file has.
#[derive(Clone, Debug, PartialEq, Eq)]
pub struct Content {
    pub page: Page,
    pub arrived: Vec<u8>,
    pub text: Vec<u32>,
    pub history: Vec<u32>,
}

/// "key=value lines (..) in this order"
const KEYS: [&str; 10] = ["form", "kind", "opening", "length", "used", "done", "saved", "arrived", "text", "history"];

/// How many of them stand before the text.
const FRONT: usize = 8;

/// "Kind is utf7h, utf7b or jp2."
const KINDS: [(&str, Kind); 3] = [("utf7h", Kind::Utf7Header), ("utf7b", Kind::Utf7Body), ("jp2", Kind::Jp2)];

/// A form, and the digits of its numbers.
#[derive(Clone, Copy, Debug, PartialEq, Eq)]
pub struct Form {
    name: &'static str,
    digits: usize,
}

/// "Form is 1." "five decimal digits"
pub const FORM_1: Form = Form { name: "1", digits: 5 };

/// Order 10: "Page files get form 2 with seven digits".
pub const FORM_2: Form = Form { name: "2", digits: 7 };

/// Order 10: "written only when some number, or the arrived length, exceeds 65,536. All others stay form 1".
const MOST_IN_FORM_1: usize = 65_536;

impl Content {
    /// What is kept of a page, where it has as many cells and words as it says: "nothing past the ends is kept".
    pub fn of(state: &State, arrived: &[u8]) -> Option<Content> {
        let State { page, text, history } = state;
        Some(Content {
            page: *page,
            arrived: arrived.to_vec(),
            text: text.get(..page.length)?.to_vec(),
            history: history.get(..page.used)?.to_vec(),
        })
    }

    /// Its five numbers, without a mark that is none, and the arrived length.
    fn numbers(&self) -> Vec<usize> {
        let Page { opening, length, used, done, saved, .. } = self.page;
        [opening, length, used, done, self.arrived.len()].into_iter().chain(saved).collect()
    }

    /// The form that is due.
    pub fn form(&self) -> Form {
        if self.numbers().into_iter().any(|number| number > MOST_IN_FORM_1) {
            FORM_2
        } else {
            FORM_1
        }
    }

    /// Its file.
    pub fn file(&self) -> Vec<u8> {
        self.file_in(self.form())
    }

    /// The file that has this in a form, due or not. "Arrived bytes are pairs of capital hex digits, cells and words
    /// groups of eight, without spaces."
    pub fn file_in(&self, form: Form) -> Vec<u8> {
        let lists = [hex(self.text.iter().copied(), 8), hex(self.history.iter().copied(), 8)];
        let [text, history] = lists.map(String::into_bytes);
        [&self.front_in(form)[..], b"text=", &text, b"\nhistory=", &history, b"\n"].concat()
    }

    /// Its lines before the text. "The next four are (..) digits, saved the same or `none`."
    fn front_in(&self, form: Form) -> Vec<u8> {
        let Page { kind, opening, length, used, done, saved } = self.page;
        let (kind, _) = KINDS.iter().find(|(_, other)| other.number() == kind).expect("a number of a kind");
        let decimal = |number: usize| format!("{number:0digits$}", digits = form.digits);
        let [opening, length, used, done] = [opening, length, used, done].map(decimal);
        let saved = saved.map_or("none".to_string(), decimal);
        let arrived = hex(self.arrived.iter().map(|&byte| byte.into()), 2);
        let values = [form.name.to_string(), kind.to_string(), opening, length, used, done, saved, arrived];
        let lines: Vec<String> = KEYS.iter().zip(values).map(|(key, value)| format!("{key}={value}\n")).collect();
        lines.concat().into_bytes()
    }

    /// What stands in a file: each value is read as if it were one that can be there.
    fn found_in(file: &[u8]) -> Option<Content> {
        let lines = std::str::from_utf8(file).ok()?.split('\n');
        let values: Vec<&str> = lines.map(|line| line.split_once('=').map_or("", |(_, value)| value)).collect();
        let [_, kind, opening, length, used, done, saved, arrived, text, history, _] = values[..] else { return None };
        let (_, kind) = KINDS.iter().find(|(name, _)| *name == kind)?;
        let page = Page {
            kind: kind.number(),
            opening: opening.parse().ok()?,
            length: length.parse().ok()?,
            used: used.parse().ok()?,
            done: done.parse().ok()?,
            saved: saved.parse().ok(),
        };
        let arrived = numbers(arrived, 2)?.into_iter().map(|number| number as u8).collect();
        Some(Content { page, arrived, text: numbers(text, 8)?, history: numbers(history, 8)? })
    }

    /// "a number or list over (..) or a list of the wrong length being out of form": what is over form 1's bound is not
    /// written in it, and form 2 has the limit's.
    fn is_in_form(&self) -> bool {
        self.is_within_bounds() && self.text.len() == self.page.length && self.history.len() == self.page.used
    }

    fn is_within_bounds(&self) -> bool {
        self.numbers().iter().all(|&number| number <= LIMIT)
    }

    /// This content in buffers of these lengths, "filled with zeros to the lent lengths".
    fn state(&self, cells: usize, words: usize) -> State {
        let padded = |list: &[u32], length| [list, &vec![0; length - list.len()]].concat();
        State { page: self.page, text: padded(&self.text, cells), history: padded(&self.history, words) }
    }
}

/// So many capital hex digits for each number, high digit first.
fn hex(numbers: impl Iterator<Item = u32>, width: u32) -> String {
    let mut digits = String::new();
    for number in numbers {
        for place in (0..width).rev() {
            digits.push(char::from(b"0123456789ABCDEF"[(number >> (4 * place)) as usize % 16]));
        }
    }
    digits
}

/// The numbers that groups of so many hex digits stand for.
fn numbers(digits: &str, width: usize) -> Option<Vec<u32>> {
    let starts = (0..digits.len()).step_by(width);
    let groups = starts.map(|start| digits.get(start..digits.len().min(start + width)));
    groups.map(|group| u32::from_str_radix(group?, 16).ok()).collect()
}

/// What a file has, if it is a page file.
pub fn content(file: &[u8]) -> Option<Content> {
    Content::found_in(file).filter(|content| content.is_in_form() && content.file() == file)
}

/// Whether these are the lines before the text of some page file: as many cells and words as they say can follow.
fn is_front(lines: &[u8]) -> bool {
    let found = Content::found_in(&[lines, b"text=\nhistory=\n"].concat());
    found.is_some_and(|found| found.is_within_bounds() && found.front_in(found.form()) == lines)
}

/// Where a file that is no page file fails: "at the first byte no page file can have there, or the length if it ends
/// early". So many bytes of it begin some page file, and no more do; of more bytes than it has, none is begun.
fn failing_at(file: &[u8]) -> usize {
    let begins = |length: usize| file.get(..length).is_some_and(begins_one);
    let (mut good, mut bad) = (0, 64);
    while begins(bad) {
        (good, bad) = (bad, 2 * bad);
    }
    while bad - good > 1 {
        let between = (good + bad) / 2;
        if begins(between) {
            good = between;
        } else {
            bad = between;
        }
    }
    good
}

/// Whether some page file begins with these bytes: they stop in a line, and that can go on so that one does.
fn begins_one(beginning: &[u8]) -> bool {
    let lines: Vec<&[u8]> = beginning.split(|&byte| byte == b'\n').collect();
    let (stopped, whole) = lines.split_last().expect("one line at least");
    if whole.len() == FRONT && stopped.is_empty() {
        return is_front(beginning);
    }
    let Some(key) = KEYS.get(whole.len()) else { return content(beginning).is_some() };
    values(whole, stopped.len().saturating_sub(key.len() + 1)).iter().any(|value| {
        let line = format!("{key}={value}");
        line.as_bytes().get(stopped.len()..).is_some_and(|rest| begins_one(&[beginning, rest, b"\n"].concat()))
    })
}

/// Values for the line after these, of which the value there begins so many bytes. If it can be ended at all, then like
/// one of them: forms, kinds and `none` have one end, the smallest number has zeros for the missing digits, and any
/// digits do in a list, as many as its length asks for, or one where a pair of arrived bytes lacks it. Form 2 may be due
/// by a mark, and where it is by no number, it is by the arrived length. Nothing follows a number that is none.
fn values(before: &[&[u8]], begun: usize) -> Vec<String> {
    let form = if before.first().is_some_and(|line| line.ends_with(FORM_2.name.as_bytes())) { FORM_2 } else { FORM_1 };
    let number_in = |line: usize| {
        let (_, digits) = std::str::from_utf8(before[line]).ok()?.split_once('=')?;
        digits.parse().ok().filter(|&number: &usize| digits.len() == form.digits && number <= LIMIT)
    };
    if !(2..before.len().min(6)).all(|line| number_in(line).is_some()) {
        return vec![];
    }
    let zeros = |count: usize| "0".repeat(count);
    let is_due = (2..before.len()).any(|line| number_in(line).is_some_and(|number| number > MOST_IN_FORM_1));
    let least = if form == FORM_2 && !is_due { 2 * MOST_IN_FORM_1 + 2 } else { 0 };
    match KEYS[before.len()] {
        "form" => [FORM_1, FORM_2].map(|form| form.name.to_string()).to_vec(),
        "kind" => KINDS.map(|(name, _)| name.to_string()).to_vec(),
        "saved" if form == FORM_2 && !is_due => vec!["0065537".to_string(), zeros(7), "none".to_string()],
        "saved" => vec![zeros(form.digits), "none".to_string()],
        "arrived" => vec![zeros(begun.next_multiple_of(2).max(least))],
        "text" => vec![zeros(8 * number_in(3).unwrap_or(0))],
        "history" => vec![zeros(8 * number_in(4).unwrap_or(0))],
        _ => vec![zeros(form.digits)],
    }
}

/// What reading a file leaves: its answer, the page with its buffers, and the buffer of arrived bytes.
#[derive(Clone, Debug, PartialEq, Eq)]
pub struct FileLeft {
    pub answer: Answer,
    pub state: State,
    pub arrived: Vec<u8>,
}

/// What reading a file leaves that is lent these buffers. The page of the state is none that it is lent.
pub fn left(file: &[u8], buffers: &State, arrived: &[u8]) -> FileLeft {
    match read(file, buffers, arrived.len()) {
        // "its place is the count of arrived bytes"
        Ok(found) => FileLeft {
            answer: Answer { number: 0, place: found.arrived.len() },
            state: found.state(buffers.text.len(), buffers.history.len()),
            arrived: [&found.arrived[..], &vec![0; arrived.len() - found.arrived.len()]].concat(),
        },
        // "Refused, the page is utf7h, zeros, none."
        Err(answer) => {
            let page = Page { kind: 0, opening: 0, length: 0, used: 0, done: 0, saved: None };
            FileLeft { answer, state: State { page, ..buffers.clone() }, arrived: arrived.to_vec() }
        }
    }
}

/// What is read of a file, with so much room for arrived bytes. "Refusals, in order: 16 (all three buffers; the file
/// may be longer), 18 (..), 9 for the first of arrived, text, history that lacks room, 14, then 15".
fn read(file: &[u8], buffers: &State, room: usize) -> Result<Content, Answer> {
    all_within_limit(buffers, room)?;
    let Some(found) = content(file) else { return refuse(18, failing_at(file)) };
    let lists = [found.arrived.len(), found.text.len(), found.history.len()];
    let rooms = [room, buffers.text.len(), buffers.history.len()];
    if let Some((needed, _)) = lists.into_iter().zip(rooms).find(|(needed, room)| needed > room) {
        return refuse(9, needed);
    }
    judged(&found.state(buffers.text.len(), buffers.history.len()), &found.arrived)?;
    Ok(found)
}

/// "14, then 15 where the arrived bytes do not read as *opening* cells or, with nothing standing, as the text."
fn judged(state: &State, arrived: &[u8]) -> Result<(), Answer> {
    let Some(Sound { kind, text, standing, .. }) = sound(state) else { return refuse(14, 0) };
    match kind.read(arrived) {
        Ok(cells) if cells.len() == state.page.opening && (!standing.is_empty() || cells == text) => Ok(()),
        _ => refuse(15, 0),
    }
}

/// The file that keeping gives, or the refusal, where there is room enough. "Keeping refuses with 16, 14, this same 15,
/// then 9."
pub fn keep(state: &State, arrived: &[u8]) -> Elements<u8> {
    all_within_limit(state, arrived.len())?;
    judged(state, arrived)?;
    Ok(Content::of(state, arrived).expect("a sound page").file())
}

#[cfg(test)]
mod tests {
    use super::*;
    use crate::calls::files;
    use crate::calls::seeded::{kept, SMALL};
    use crate::calls::Move;
    use crate::examples::page::worked_page;
    use crate::examples::page_file::{keepings, readings, ARRIVED, WORKED};
    use crate::second::{outcome, page};

    #[test]
    fn keeps_the_worked_page() {
        assert_eq!(keep(&worked_page(), ARRIVED), Ok(WORKED.as_bytes().to_vec()));
    }

    #[test]
    fn answers_the_examples() {
        for example in keepings() {
            let kept = outcome(&keep(&example.state, &example.arrived), &vec![7; example.room]);
            assert_eq!(kept.answer, example.answer, "{example}");
        }
        for example in readings() {
            let filed = files::Filed { file: example.file.clone(), rooms: example.rooms };
            let (buffers, arrived) = filed.buffers();
            let found = left(&example.file, &buffers, &arrived);
            assert_eq!(found.answer, example.answer, "{example}");
            if found.answer.number != 0 {
                let page = Page { kind: 0, opening: 0, length: 0, used: 0, done: 0, saved: None };
                assert_eq!((found.state, found.arrived), (State { page, ..buffers }, arrived), "{example}");
            }
        }
    }

    #[test]
    fn reading_fills_the_buffers_with_zeros() {
        let filed = files::Filed { file: WORKED.as_bytes().to_vec(), rooms: [11, 5, 6] };
        let (buffers, arrived) = filed.buffers();
        let found = left(&filed.file, &buffers, &arrived);
        assert_eq!((found.state, found.arrived), (worked_page(), [ARRIVED, &[0, 0]].concat()));
    }

    #[test]
    fn every_beginning_of_a_page_file_begins_one() {
        for kind in Kind::ALL {
            let mut files = Vec::new();
            for list in kept(1, kind, SMALL, 60) {
                let mut state = list.start.clone();
                for item in &list.moves {
                    let Move::Call(call) = item else { break };
                    let left = page::left(&state, call, &vec![0; call.room()]);
                    files.extend(left.file(call));
                    state = left.state;
                }
            }
            assert!(files.len() > 20, "{}", files.len());
            for file in files {
                assert!((0..=file.len()).all(|length| begins_one(&file[..length])), "{}", file.escape_ascii());
            }
        }
    }

    #[test]
    fn a_file_fails_where_its_beginnings_do() {
        for filed in files::small(Kind::Jp2).iter().flat_map(|filed| files::bytes_changed(filed, b"0Gn\n")).step_by(7) {
            if content(&filed.file).is_none() {
                let first = (1..=filed.file.len()).find(|&length| !begins_one(&filed.file[..length]));
                assert_eq!(failing_at(&filed.file), first.map_or(filed.file.len(), |length| length - 1));
            }
        }
    }

    #[test]
    fn what_is_read_is_kept_as_the_same_file() {
        for kind in Kind::ALL {
            for filed in files::seeded(1, kind, 2_000) {
                let (buffers, arrived) = filed.buffers();
                let found = left(&filed.file, &buffers, &arrived);
                if found.answer.number == 0 {
                    assert_eq!(keep(&found.state, &found.arrived[..found.answer.place]), Ok(filed.file));
                }
            }
        }
    }
}
