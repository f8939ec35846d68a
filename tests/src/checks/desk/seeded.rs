//! Seeded scripts.

use super::script::Script;
use crate::examples::desk::{files, BAD_LINES, OLD_MODE};
use crate::rng::Rng;
use crate::second::desk as second;
use crate::second::files::Entry;
use crate::second::ledger::Ledger;
use crate::second::{Call, Kind};
use crate::texts::{self, Source};

/// The most saves of a seeded script: each takes some time, for the file is synced.
const SAVES: usize = 3;

/// So many scripts on whole letters.
pub fn scripts(seed: u64, kind: Kind, purpose: &str, count: usize) -> impl Iterator<Item = Script> {
    let mut rng = Rng::new(seed, &format!("desk {} {purpose}", kind.name()));
    (0..count).map(move |_| {
        let letter = letter(&mut rng, kind);
        script(&mut rng, kind, letter)
    })
}

/// So many scripts on letters of which many are damaged.
pub fn on_any_letters(seed: u64, kind: Kind, count: usize) -> impl Iterator<Item = Script> {
    let mut rng = Rng::new(seed, &format!("desk {} any letters", kind.name()));
    (0..count).map(move |_| {
        let length = length(&mut rng);
        let letter = texts::of_kind(kind).text(&mut rng, length);
        script(&mut rng, kind, letter)
    })
}

/// Most letters have less than 60 bytes.
fn length(rng: &mut Rng) -> usize {
    match rng.below(12) {
        0 => rng.below(3),
        1..=10 => rng.below(60),
        _ => rng.below(600),
    }
}

/// A letter of a kind.
pub fn letter(rng: &mut Rng, kind: Kind) -> Vec<u8> {
    let length = length(rng);
    (texts::of_kind(kind).whole)(rng, length)
}

pub fn script(rng: &mut Rng, kind: Kind, letter: Vec<u8>) -> Script {
    let lines = lines(rng, kind, Ledger::new(kind, &letter));
    in_folder(rng, kind, letter, lines)
}

/// Lines that change a page and turn back, and no others.
pub fn edits(rng: &mut Rng, kind: Kind, letter: &[u8]) -> Vec<Vec<u8>> {
    let mut draft = Draft { kind, ledger: Ledger::new(kind, letter), lines: Vec::new(), saves: 0 };
    for _ in 0..rng.between(0, 12) {
        match rng.below(8) {
            0..=4 => draft.add_replace(rng),
            5..=6 => draft.add_turns(rng),
            _ => draft.add_squeeze(rng),
        }
    }
    draft.lines
}

/// Lines on a page of this ledger, if there is a page.
pub fn lines(rng: &mut Rng, kind: Kind, ledger: Option<Ledger>) -> Vec<Vec<u8>> {
    let mut draft = Draft { kind, ledger, lines: Vec::new(), saves: 0 };
    for _ in 0..rng.between(0, 18) {
        draft.add(rng);
    }
    let mut lines = draft.lines;
    if rng.one_in(3) {
        let place = rng.below(lines.len() + 1);
        lines.splice(place..place, quits(rng));
    }
    if let (true, Some(last)) = (rng.one_in(3), lines.last_mut()) {
        last.pop();
    }
    // A damaged line may be two, or one with the next.
    second::lines(&lines.concat()).map(<[u8]>::to_vec).collect()
}

/// A `quit`; or two, the second directly behind the first or behind a line with no word, with a command or with none.
fn quits(rng: &mut Rng) -> Vec<Vec<u8>> {
    let quit = b"quit".to_vec();
    let mut lines = vec![line(rng, &[quit.clone()])];
    if rng.one_in(2) {
        let between: &[&[u8]] =
            rng.pick(&[&[][..], &[], &[b""], &[b"", b""], &[b"show"], &[b"undo"], &[b"quit 1"], &[b"x"]]);
        lines.extend(between.iter().map(|word| line(rng, &[word.to_vec()])).collect::<Vec<_>>());
        lines.push(line(rng, &[quit]));
    }
    lines
}

/// A script in a folder with the letter and, most often, with others that saves may meet.
fn in_folder(rng: &mut Rng, kind: Kind, letter: Vec<u8>, lines: Vec<Vec<u8>>) -> Script {
    let (name, path) = rng.pick(&[
        ("letter", "letter"),
        ("letter", "letter"),
        ("letter", "letter"),
        ("letter", "letter"),
        ("./letter", "letter"),
        ("the letter ", "the letter "),
        ("-", "-"),
        ("sub//letter", "sub/letter"),
    ]);
    let others = if rng.one_in(4) { &[("sub/", "")][..] } else { OTHERS };
    Script { lines, ..on_letter(kind, name, path, letter, others) }
}

/// What saves may meet in a folder.
pub const OTHERS: &[(&str, &str)] = &[
    ("old", "an older file"),
    ("busy", "a file"),
    ("busy.new", "that another program is making"),
    ("taken.new/", ""),
    ("sub/", ""),
    ("sub/old", ""),
];

/// A script of no lines, on a letter with this name and path.
pub fn on_letter(kind: Kind, name: &str, path: &str, letter: Vec<u8>, others: &[(&str, &str)]) -> Script {
    let mut files = files(others, OLD_MODE);
    files.entries.insert(path.as_bytes().to_vec(), Entry::File { bytes: letter, mode: OLD_MODE });
    let arguments = vec![second::kind_word(kind).as_bytes().to_vec(), name.as_bytes().to_vec()];
    Script { arguments, files, lines: vec![] }
}

/// The lines of a script in the making. What is asked for next depends on what the ledger says was reached.
struct Draft {
    kind: Kind,
    /// There is none if the letter is refused.
    ledger: Option<Ledger>,
    lines: Vec<Vec<u8>>,
    saves: usize,
}

impl Draft {
    /// Adds a line, or a few of undo and redo.
    fn add(&mut self, rng: &mut Rng) {
        match rng.below(35) {
            0..=13 => self.add_replace(rng),
            14..=18 => self.add_turns(rng),
            19..=21 => self.lines.push(line(rng, &[b"show".to_vec()])),
            22..=24 if self.saves < SAVES => {
                self.saves += 1;
                let name = name(rng);
                let word: &[u8] = rng.pick(&[b"save", b"save", b"keep"]);
                self.lines.push(line(rng, &[word.to_vec(), name]));
            }
            25..=27 => {
                let (_, group) = rng.pick(&BAD_LINES);
                let bad = rng.pick(group).to_vec();
                self.lines.push(line(rng, &[bad]));
            }
            28..=29 => {
                let damaged = self.damaged(rng);
                self.lines.push(damaged);
            }
            30..=32 => self.add_squeeze(rng),
            _ => self.lines.push(line(rng, &[])),
        }
    }

    fn hear(&mut self, call: &Call, accepted: bool) {
        if let Some(ledger) = &mut self.ledger {
            ledger.hear(call, accepted);
        }
    }

    /// Adds a run of undo or of redo, or of one and then of the other; some go on past the end.
    fn add_turns(&mut self, rng: &mut Rng) {
        let calls = if rng.one_in(2) { [Call::Undo, Call::Redo] } else { [Call::Redo, Call::Undo] };
        for call in calls.iter().take(rng.between(1, 2)) {
            let steps = self.ledger.as_ref().map_or(0, |ledger| match call {
                Call::Undo => ledger.standing.len(),
                _ => ledger.undone.len(),
            });
            for _ in 0..rng.between(1, steps + 1) {
                let word = if *call == Call::Undo { b"undo" } else { b"redo" };
                self.lines.push(line(rng, &[word.to_vec()]));
                self.hear(call, true);
            }
        }
    }

    /// Most often of some of the steps that stand.
    fn add_squeeze(&mut self, rng: &mut Rng) {
        let standing = self.ledger.as_ref().map_or(0, |ledger| ledger.standing.len());
        let steps = match rng.below(8) {
            0 => rng.pick(&[0, 1, standing + 1, u32::MAX as usize]),
            1..=3 => standing,
            _ => rng.below(standing + 2),
        };
        let number = decimal(rng, steps);
        self.lines.push(line(rng, &[b"squeeze".to_vec(), number]));
        let gains = |ledger: &Ledger| ledger.fold(steps).words() < ledger.words_of(steps);
        let accepted = (2..=standing).contains(&steps) && self.ledger.as_ref().is_some_and(gains);
        self.hear(&Call::Squeeze { steps, work: 0 }, accepted);
    }

    fn add_replace(&mut self, rng: &mut Rng) {
        let length = self.ledger.as_ref().map_or(20, |ledger| ledger.text().len());
        let (place, count) = part(rng, length);
        let cells = cells(rng, texts::of_kind(self.kind));
        self.lines.push(replace_line(rng, place, count, &cells));
        let accepted = place + count <= length && self.kind.write(&cells).is_ok();
        self.hear(&Call::Replace { place, count, cells }, accepted);
    }

    /// A line that is right but for one byte, or is right all the same.
    fn damaged(&self, rng: &mut Rng) -> Vec<u8> {
        let mut damaged = match rng.below(6) {
            0..=3 => {
                let right: &[u8] = rng.pick(&[b"show", b"undo", b"redo", b"squeeze 2", b"save out", b"keep out"]);
                line(rng, &[right.to_vec()])
            }
            _ => {
                let cells = cells(rng, texts::of_kind(self.kind));
                replace_line(rng, 0, 0, &cells)
            }
        };
        // Of these bytes none makes a name that leads out of the folder.
        let byte = rng.pick(b"   \t\t\r\n\n\0\x0B\x0C\x80\xFF0099AFGafgsx+-:@`");
        let place = rng.below(damaged.len());
        match rng.below(3) {
            0 => damaged[place] = byte,
            1 => damaged.insert(place, byte),
            _ => drop(damaged.remove(place)),
        }
        damaged
    }
}

/// Words with blanks between them, as a line.
pub fn line(rng: &mut Rng, words: &[Vec<u8>]) -> Vec<u8> {
    let odd = rng.one_in(5);
    let mut blanks = |least| match odd {
        true => (0..least + rng.below(3)).map(|_| rng.pick(b"  \t\r")).collect(),
        false => vec![b' '; least],
    };
    let mut line = blanks(0);
    for (index, word) in words.iter().enumerate() {
        line.extend(blanks(usize::from(index > 0)));
        line.extend(word);
    }
    line.extend(blanks(0));
    line.extend(rng.pick(&[&b"\n"[..], b"\n", b"\n", b"\n", b"\r\n"]));
    line
}

fn replace_line(rng: &mut Rng, place: usize, count: usize, cells: &[u32]) -> Vec<u8> {
    let mut words = vec![b"replace".to_vec(), decimal(rng, place), decimal(rng, count)];
    words.extend(cells.iter().map(|&cell| hex(rng, cell)));
    line(rng, &words)
}

/// A number with a few zeros before it now and then.
fn decimal(rng: &mut Rng, number: usize) -> Vec<u8> {
    let zeros = if rng.one_in(8) { rng.between(1, 20) } else { 0 };
    format!("{}{number}", "0".repeat(zeros)).into_bytes()
}

/// A cell in digits large and small, with many zeros before it now and then.
fn hex(rng: &mut Rng, cell: u32) -> Vec<u8> {
    let zeros = if rng.one_in(12) { rng.between(1, 30) } else { 0 };
    let digits = match rng.below(6) {
        0..=2 => format!("{cell:X}"),
        3 => format!("{cell:x}"),
        4 => format!("{cell:08X}"),
        _ => format!("{cell:x}")
            .chars()
            .map(|digit| if rng.one_in(2) { digit.to_ascii_uppercase() } else { digit })
            .collect(),
    };
    format!("{}{digits}", "0".repeat(zeros)).into_bytes()
}

/// A place and a count: of a part of a text of this length, of one that ends a little beyond it, or far beyond it.
fn part(rng: &mut Rng, length: usize) -> (usize, usize) {
    let place = rng.below(length + 1);
    let largest = u32::MAX as usize;
    match rng.below(20) {
        0..=10 => (place, rng.below(4).min(length - place)),
        11..=12 => (place, rng.below(length - place + 1)),
        13 => (0, length),
        14..=15 => (length, 0),
        16..=17 => (place, length - place + rng.between(1, 3)),
        18 => (length + rng.between(1, 3), 0),
        // Some of these sums come to little if they are cut off at 32 bits.
        _ => rng.pick(&[(largest, 0), (0, largest), (largest, largest), (largest, 1), (place + 1, largest - place)]),
    }
}

/// Cells to add; one list in eight has a cell that is not writable.
fn cells(rng: &mut Rng, source: &Source) -> Vec<u32> {
    let count = if rng.one_in(8) { rng.below(40) } else { rng.below(5) };
    let mut cells = (source.cells)(rng, count);
    if rng.one_in(8) {
        cells.insert(rng.below(count + 1), (source.unwritable)(rng));
    }
    cells
}

/// Names to save to, and names that cannot be saved to, most of them because of `OTHERS`.
pub const NAMES: &[&[u8]] = &[
    b"out",
    b"out two",
    b"letter",
    b"old",
    b"sub/out",
    b"sub/old",
    b"./out",
    b"sub//./out",
    b"sub/../out",
    b"a  b\tc\rd",
    b"\xE6\x97\xA5\xE6\x9C\xAC",
    b"\xC2\x80\xC3\xBF\x01\x1B[1m",
    b"\xF4\x8F\xBF\xBF",
    b"-",
    b"*",
    b"out.new",
    b"show",
    b"save out",
    b"busy",
    b"taken",
    b"sub",
    b"sub/",
    b".",
    b"..",
    b"sub/.",
    b"sub/..",
    b"no/out",
    b"no/",
    b"letter/out",
    b"letter/",
    b"letter/../out",
    b"a\0b",
    b"\0",
    // These are no UTF-8 text: bytes that begin nothing, too long a form, half a surrogate pair, too great a number,
    // and a character that is cut off.
    b"\x80\xFF\x01\x1B[1m",
    b"sub/\xC0\xAF",
    b"out\xED\xA0\x80",
    b"\xF4\x90\x80\x80",
    b"no/\xE6\x97\xA5\xE6\x9C",
];

/// Often one of the first names, so that some are saved to twice.
fn name(rng: &mut Rng) -> Vec<u8> {
    match rng.below(10) {
        0..=4 => rng.pick(&NAMES[..4]).to_vec(),
        5..=8 => rng.pick(NAMES).to_vec(),
        _ => long_name(rng.pick(LONG_NAMES)),
    }
}

/// Lengths of names: those with the longest parts, and the longest as a whole, and longer ones.
pub const LONG_NAMES: &[usize] = &[245, 251, 252, 255, 256, 4_082, 4_083, 4_084, 4_095, 4_096, 5_000];

/// A name of this length: one part if that is about as long as a part can be, else many that lead nowhere else.
pub fn long_name(length: usize) -> Vec<u8> {
    if length < 300 {
        return vec![b'n'; length];
    }
    let mut name = b"./".repeat(length / 2 - 1);
    name.resize(length, b'n');
    name
}

#[cfg(test)]
mod tests {
    use super::*;
    use crate::second::desk::Told;

    fn told(scripts: impl Iterator<Item = Script>) -> Vec<Told> {
        scripts.flat_map(|script| second::run(&script.start(0o22)).told).collect()
    }

    #[test]
    fn most_lines_are_answered_and_most_answers_accept() {
        let told: Vec<Told> = Kind::ALL.into_iter().flat_map(|kind| told(scripts(1, kind, "test", 25))).collect();
        let count = |is: fn(&Told) -> bool| 100 * told.iter().filter(|told| is(told)).count() / told.len();
        let accepted = count(|told| matches!(told, Told::Answer(_, answer) if answer.number == 0));
        let refused = count(|told| matches!(told, Told::Answer(_, answer) if answer.number != 0));
        let complaints = count(|told| matches!(told, Told::Complaint(_)));
        assert!((40..70).contains(&accepted), "{accepted}");
        assert!((10..40).contains(&refused), "{refused}");
        assert!((5..30).contains(&complaints), "{complaints}");
    }

    #[test]
    fn long_names_are_as_long_as_asked_for() {
        assert!(LONG_NAMES.iter().all(|&length| long_name(length).len() == length));
    }
}
