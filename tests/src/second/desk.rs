//! The program `desk`. Of document 01 it has the page and the listers' style; quotations in comments are sentences of
//! docs/DESK.md, which tells the rest and is README.md's part on `desk`, or of order 6 of document 02 where a comment
//! says so. It was written without a look at the proved code. Where docs/DESK.md is silent, a comment says what is
//! taken.

use std::{mem, str};

use super::files::{Entry, Errno, Files, EILSEQ};
use super::page::{self, Page, State};
use super::page_file;
use super::{print_listing, Answer, Call, Kind, LIMIT};

/// All that `desk` is started with.
pub struct Start {
    /// The arguments after the program's name.
    pub arguments: Vec<Vec<u8>>,
    /// What there is in the folder that it is started in.
    pub files: Files,
    pub umask: u32,
    /// The whole of its standard input.
    pub input: Vec<u8>,
}

/// All that is seen of it.
pub struct End {
    /// What it tells: at the start, and then for each line up to the end or to the `quit` that ends it.
    pub told: Vec<Told>,
    /// What it tells when the input has ended.
    pub last: Told,
    pub files: Files,
}

impl End {
    /// All that it tells.
    pub fn all(&self) -> Vec<Told> {
        self.told.iter().chain([&self.last]).cloned().collect()
    }
}

/// What it tells at once.
#[derive(Clone, Debug, PartialEq, Eq)]
pub enum Told {
    Nothing,
    /// The answer of what has this name.
    Answer(&'static str, Answer),
    /// The cells that `show` shows.
    Cells(Vec<u32>),
    Complaint(Complaint),
    /// It ends, although there may be more input.
    End,
}

#[derive(Clone, Debug, PartialEq, Eq)]
pub enum Complaint {
    Use,
    Kind,
    LetterNameTooLong,
    /// FILE cannot be opened or read.
    Letter(Vec<u8>, Errno),
    /// A page file that there is no room for.
    PageFileTooLong(Vec<u8>),
    LineTooLong,
    NoSuchCommand,
    NothingMayFollow,
    /// `quit` finds the page not saved; and so does the end of the input.
    NotSaved,
    EndedNotSaved,
    Replace,
    Squeeze,
    NameMissing,
    KeepNameMissing,
    NameTooLong,
    NameWithNul,
    /// FILE cannot be looked at, or what is saved cannot take its place.
    Save(Vec<u8>, Errno),
    Directory(Vec<u8>),
    ReadOnly(Vec<u8>),
    /// No new file can be made beside FILE.
    Beside(Vec<u8>, Errno),
}

/// The words for the kinds.
pub fn kind_word(kind: Kind) -> &'static str {
    match kind {
        Kind::Utf7Header => "utf7h",
        Kind::Utf7Body => "utf7b",
        Kind::Jp2 => "jp2",
    }
}

/// How the answers are counted: those of an opened letter by kind, and those of each command.
pub fn open_name(kind: Kind) -> &'static str {
    match kind {
        Kind::Utf7Header => "desk-utf7h",
        Kind::Utf7Body => "desk-utf7b",
        Kind::Jp2 => "desk-jp2",
    }
}

pub const SHOW: &str = "desk-show";
pub const REPLACE: &str = "desk-replace";
pub const UNDO: &str = "desk-undo";
pub const REDO: &str = "desk-redo";
pub const SQUEEZE: &str = "desk-squeeze";
pub const SAVE: &str = "desk-save";
pub const KEEP: &str = "desk-keep";
pub const PAGE: &str = "desk-page";

/// "FILE longer than 4,096 bytes"
const LONGEST_LETTER_NAME: usize = 4_096;

/// "a name of more than 4,095 bytes"
const LONGEST_NAME: usize = 4_095;

/// "a folder's part of more than 4,080 bytes"
const LONGEST_FOLDER: usize = 4_080;

/// "a line of more than 65,535 bytes (without its LF)"
pub const LONGEST_LINE: usize = 65_535;

/// "a history of 262,144 words", and a squeeze's "work buffer of 262,144 words"
pub const HISTORY: usize = 262_144;

/// "Save is lent the letter as it arrived and an output of 1,572,864 bytes." "keep is lent an output of 1,572,864 bytes"
/// "One that has more than 1,572,864 bytes"
pub const ROOM: usize = 1_572_864;

impl Told {
    /// What of it goes to standard output: "Answers go to standard output in the listers' style".
    pub fn output(&self) -> Vec<u8> {
        match self {
            // "`status=N` and `count=N` (accepted) or `place=N` (refused), each line ended by LF"
            Told::Answer(_, Answer { number: 0, place }) => format!("status=0\ncount={place}\n").into_bytes(),
            Told::Answer(_, Answer { number, place }) => format!("status={number}\nplace={place}\n").into_bytes(),
            // "`status=0`, `count=` the length, `cells=` the cells as the listers print them."
            Told::Cells(cells) => print_listing(&Ok(cells.clone())).into_bytes(),
            Told::Nothing | Told::Complaint(_) | Told::End => vec![],
        }
    }

    /// What of it goes to standard error: "complaints to standard error, each one line that begins `desk: `."
    pub fn errors(&self) -> Vec<u8> {
        match self {
            Told::Complaint(complaint) => [b"desk: ", &complaint.text()[..], b"\n"].concat(),
            _ => vec![],
        }
    }
}

impl Complaint {
    fn text(&self) -> Vec<u8> {
        let text = match self {
            Complaint::Use => "use: desk KIND FILE, where KIND is utf7h, utf7b or jp2, or desk page FILE",
            Complaint::Kind => "KIND is utf7h, utf7b or jp2, or page for a page that was kept",
            Complaint::LetterNameTooLong => "FILE: File name too long",
            Complaint::LineTooLong => "a line is longer than 65535 bytes",
            Complaint::NoSuchCommand => {
                "no such command: show, replace PLACE COUNT CELL.., undo, redo, squeeze K, save FILE, keep FILE, quit"
            }
            Complaint::NothingMayFollow => "nothing may follow this command",
            Complaint::NotSaved => "the page is not saved: save FILE, or quit again to leave it",
            Complaint::EndedNotSaved => "the input has ended, and the page is not saved",
            Complaint::Replace => {
                "replace PLACE COUNT CELL..: two decimal numbers, then cells in hex, none over FFFFFFFF"
            }
            Complaint::Squeeze => "squeeze K: one decimal number, not over 4294967295",
            Complaint::NameMissing => "save FILE: the name is missing",
            Complaint::KeepNameMissing => "keep FILE: the name is missing",
            Complaint::NameTooLong => "the name of the file is too long",
            Complaint::NameWithNul => "the name of the file has a NUL",
            Complaint::Letter(name, errno) | Complaint::Save(name, errno) => return of_name(name, &errno.text()),
            Complaint::PageFileTooLong(name) => {
                return of_name(name, "is longer than 1572864 bytes, and there is no room for it");
            }
            Complaint::Directory(name) => return of_name(name, "is a directory: save to another name"),
            Complaint::ReadOnly(name) => return of_name(name, "is read-only: save to another name"),
            Complaint::Beside(name, errno) => {
                return of_name(name, &format!("no new file can be made beside it: {}", errno.text()));
            }
        };
        text.as_bytes().to_vec()
    }
}

/// What is said of a name.
fn of_name(name: &[u8], text: &str) -> Vec<u8> {
    [name, b": ", text.as_bytes()].concat()
}

/// Runs the program.
pub fn run(start: &Start) -> End {
    match open(start) {
        // "A letter or a page file that is refused, or cannot be read, makes no page: nothing is said of it at the
        // end."
        Err(told) => End { told: vec![told], last: Told::Nothing, files: start.files.clone() },
        Ok((told, mut desk)) => {
            let mut told = vec![told];
            for line in lines(&start.input) {
                told.push(desk.obey(line));
                if told.ends_with(&[Told::End]) {
                    return End { told, last: Told::Nothing, files: desk.files };
                }
            }
            let last = if desk.is_saved() { Told::Nothing } else { Told::Complaint(Complaint::EndedNotSaved) };
            End { told, last, files: desk.files }
        }
    }
}

/// "a line ends at LF; a last line without LF is a line too": the lines, each with its LF.
pub fn lines(input: &[u8]) -> impl Iterator<Item = &[u8]> {
    input.split_inclusive(|&byte| byte == b'\n')
}

/// What is told where there is a page, with the desk; or where there is none.
fn open(start: &Start) -> Result<(Told, Desk), Told> {
    let complain = |complaint| Err(Told::Complaint(complaint));
    let [word, name] = &start.arguments[..] else { return complain(Complaint::Use) };
    let Some(begin) = beginning(word) else { return complain(Complaint::Kind) };
    if name.len() > LONGEST_LETTER_NAME {
        return complain(Complaint::LetterNameTooLong);
    }
    // "a name that is no UTF-8 text names no file, also where there is one"
    if !is_text(name) {
        return complain(Complaint::Letter(name.clone(), EILSEQ));
    }
    match start.files.read(name) {
        Err(errno) => complain(Complaint::Letter(name.clone(), errno)),
        Ok(bytes) => match begin(name, bytes) {
            (told, None) => Err(told),
            (told, Some((arrived, state))) => {
                Ok((told, Desk { arrived, state, warned: false, files: start.files.clone(), umask: start.umask }))
            }
        },
    }
}

/// The answer that a file's bytes have at the start; accepted, with the letter that is lent later on, and the page.
type Begun = (Told, Option<(Vec<u8>, State)>);

/// What is done with a file's bytes for this first argument; for "one that is none of the four", nothing.
fn beginning(word: &[u8]) -> Option<Box<dyn Fn(&[u8], Vec<u8>) -> Begun>> {
    if word == b"page" {
        return Some(Box::new(gone_on));
    }
    let kind = Kind::ALL.into_iter().find(|&kind| kind_word(kind).as_bytes() == word)?;
    Some(Box::new(move |_, letter| opened(kind, letter)))
}

/// "a text buffer of 1,048,576 cells and a history of 262,144 words"
fn blank() -> State {
    State { page: Page::opened(Kind::Utf7Header, 0), text: vec![0; LIMIT], history: vec![0; HISTORY] }
}

fn opened(kind: Kind, letter: Vec<u8>) -> Begun {
    let left = page::left(&blank(), &Call::Open { kind, arrived: letter.clone() }, &[]);
    let accepted = left.answer.number == 0;
    (Told::Answer(open_name(kind), left.answer), accepted.then_some((letter, left.state)))
}

/// "The letter that is lent to `save` and `keep` is then the one that the file gave back": as many of its bytes as
/// order 6 answers, "the count of arrived bytes".
fn gone_on(name: &[u8], file: Vec<u8>) -> Begun {
    if file.len() > ROOM {
        return (Told::Complaint(Complaint::PageFileTooLong(name.to_vec())), None);
    }
    let left = page_file::left(&file, &blank(), &[0; LIMIT]);
    let letter = left.arrived.get(..left.answer.place).map(<[u8]>::to_vec);
    let accepted = letter.filter(|_| left.answer.number == 0);
    (Told::Answer(PAGE, left.answer), accepted.map(|letter| (letter, left.state)))
}

/// Whether a name is UTF-8 text.
fn is_text(name: &[u8]) -> bool {
    str::from_utf8(name).is_ok()
}

/// "space, tab, CR, LF"
fn is_blank(byte: u8) -> bool {
    b" \t\r\n".contains(&byte)
}

/// Without the blanks at both ends.
fn trimmed(bytes: &[u8]) -> &[u8] {
    let start = bytes.iter().position(|&byte| !is_blank(byte)).unwrap_or(bytes.len());
    let end = bytes.iter().rposition(|&byte| !is_blank(byte)).map_or(start, |last| last + 1);
    &bytes[start..end]
}

/// A number in this base that is "at most 4294967295". Taken: decimal numbers have any number of leading zeros too.
fn number(word: &[u8], base: u32) -> Option<u32> {
    let digits: Vec<u32> = word.iter().map(|&byte| char::from(byte).to_digit(base)).collect::<Option<_>>()?;
    let mut without_zeros = digits.into_iter().skip_while(|&digit| digit == 0);
    without_zeros.try_fold(0u32, |number, digit| number.checked_mul(base)?.checked_add(digit))
}

/// Its page, the letter as it arrived, and the files as they are.
struct Desk {
    arrived: Vec<u8>,
    state: State,
    /// The command before was a `quit` that found the page not saved.
    warned: bool,
    files: Files,
    umask: u32,
}

impl Desk {
    /// Does what a line says, and tells what is told.
    fn obey(&mut self, line: &[u8]) -> Told {
        let line = line.strip_suffix(b"\n").unwrap_or(line);
        // "After any other line it is a first one again"
        let warned = mem::take(&mut self.warned);
        if line.len() > LONGEST_LINE {
            return Told::Complaint(Complaint::LineTooLong);
        }
        let words: Vec<&[u8]> = line.split(|&byte| is_blank(byte)).filter(|word| !word.is_empty()).collect();
        match &words[..] {
            // "Lines with no word between the two count for nothing."
            [] => {
                self.warned = warned;
                Told::Nothing
            }
            [b"replace", numbers @ ..] => self.replace(numbers),
            [b"squeeze", numbers @ ..] => self.squeeze(numbers),
            [word @ (b"save" | b"keep"), ..] => self.write(word == b"save", trimmed(&trimmed(line)[word.len()..])),
            [b"show" | b"undo" | b"redo" | b"quit", _, ..] => Told::Complaint(Complaint::NothingMayFollow),
            [b"show"] => Told::Cells(self.state.text[..self.state.page.length].to_vec()),
            [b"undo"] => self.call(UNDO, &Call::Undo),
            [b"redo"] => self.call(REDO, &Call::Redo),
            [b"quit"] if warned || self.is_saved() => Told::End,
            [b"quit"] => {
                self.warned = true;
                Told::Complaint(Complaint::NotSaved)
            }
            _ => Told::Complaint(Complaint::NoSuchCommand),
        }
    }

    /// "A page is saved where its mark is at the words done, as document 02's question has it"
    fn is_saved(&self) -> bool {
        page::ask(&self.state).unchanged
    }

    fn call(&mut self, name: &'static str, call: &Call) -> Told {
        let left = page::left_of_all(&self.state, call, &[], &vec![0; call.work()]);
        self.state = left.state;
        Told::Answer(name, left.answer)
    }

    /// "If a word is missing, holds another byte or is too large: (..), and nothing is changed." Taken: there may be no
    /// CELL.
    fn replace(&mut self, words: &[&[u8]]) -> Told {
        let call = || {
            let (&[place, count], cells) = words.split_first_chunk()?;
            let [place, count] = [number(place, 10)?, number(count, 10)?].map(|number| number as usize);
            let cells = cells.iter().map(|cell| number(cell, 16)).collect::<Option<_>>()?;
            Some(Call::Replace { place, count, cells })
        };
        match call() {
            Some(call) => self.call(REPLACE, &call),
            None => Told::Complaint(Complaint::Replace),
        }
    }

    /// "If K is missing, holds another byte or is too large, or a word follows: (..), and nothing is changed."
    fn squeeze(&mut self, words: &[&[u8]]) -> Told {
        let steps = match words {
            [word] => number(word, 10),
            _ => None,
        };
        match steps {
            // "Squeeze is lent a work buffer of 262,144 words."
            Some(steps) => self.call(SQUEEZE, &Call::Squeeze { steps: steps as usize, work: HISTORY }),
            None => Told::Complaint(Complaint::Squeeze),
        }
    }

    /// A `save FILE`, or else a `keep FILE`, whose "FILE is as a save's", with the same lent letter. What each leaves
    /// of the page is the call's: "The page stays as it is, saved or not: a `keep` is no `save`."
    fn write(&mut self, save: bool, name: &[u8]) -> Told {
        let arrived = self.arrived.clone();
        let (missing, told, call) = match save {
            true => (Complaint::NameMissing, SAVE, Call::Save { arrived, room: ROOM }),
            false => (Complaint::KeepNameMissing, KEEP, Call::Keep { arrived, room: ROOM }),
        };
        if name.is_empty() {
            return Told::Complaint(missing);
        }
        let left = page::left(&self.state, &call, &vec![0; call.room()]);
        // "Refused: the answer is told, no file is touched."
        if left.answer.number != 0 {
            return Told::Answer(told, left.answer);
        }
        // "with the same complaints, in the same words; then the answer is told (count = bytes)"
        match self.put(name, &left.output[..left.answer.place]) {
            Ok(()) => {
                self.state = left.state;
                Told::Answer(told, left.answer)
            }
            // "the desk keeps its old page, with its mark"
            Err(complaint) => Told::Complaint(complaint),
        }
    }

    /// "A save puts a new file in the place of a regular file, or where nothing is." Taken: whoever runs desk owns the
    /// files in the folder, and no file there has two names.
    fn put(&mut self, name: &[u8], bytes: &[u8]) -> Result<(), Complaint> {
        if name.len() > LONGEST_NAME {
            return Err(Complaint::NameTooLong);
        }
        if name.contains(&0) {
            return Err(Complaint::NameWithNul);
        }
        // "a name that is no UTF-8 text", before FILE is looked at
        if !is_text(name) {
            return Err(Complaint::Save(name.to_vec(), EILSEQ));
        }
        let mode = match self.files.look(name) {
            // "Where FILE is new it has the mode 0666 less the umask."
            Ok(None) => 0o666 & !self.umask,
            Ok(Some(Entry::Folder)) => return Err(Complaint::Directory(name.to_vec())),
            // "a file that nobody may write (no `w` in its mode), even for root"
            Ok(Some(Entry::File { mode, .. })) if mode & 0o222 == 0 => return Err(Complaint::ReadOnly(name.to_vec())),
            Ok(Some(Entry::File { mode, .. })) => *mode,
            Err(errno) => return Err(Complaint::Save(name.to_vec(), errno)),
        };
        let folder = &name[..name.iter().rposition(|&byte| byte == b'/').map_or(0, |slash| slash + 1)];
        if folder.len() > LONGEST_FOLDER {
            return Err(Complaint::NameTooLong);
        }
        // "under the name `desk.new.` with six letters or digits that no file there has"
        let new_name = [folder, b"desk.new.......".as_slice()].concat();
        let mut files = self.files.clone();
        let path = files.make(&new_name, bytes, mode).map_err(|errno| Complaint::Beside(name.to_vec(), errno))?;
        files.rename(&path, name).map_err(|errno| Complaint::Save(name.to_vec(), errno))?;
        self.files = files;
        Ok(())
    }
}

#[cfg(test)]
mod tests {
    use super::*;
    use crate::examples::desk::{self as examples, Transcript};
    use crate::examples::nights;

    /// The files that a run leaves that finds these; it must tell what is written out by hand.
    fn left_by(transcript: &Transcript, files: Files) -> Files {
        let (arguments, input) = (transcript.arguments.clone(), transcript.input.clone());
        let end = run(&Start { arguments, files, umask: 0o27, input });
        let written = |of: fn(&Told) -> Vec<u8>| -> Vec<u8> { end.all().iter().flat_map(of).collect() };
        let text = |bytes: &[u8]| bytes.escape_ascii().to_string();
        assert_eq!(text(&written(Told::output)), text(&transcript.output), "{transcript}");
        assert_eq!(text(&written(Told::errors)), text(&transcript.errors), "{transcript}");
        end.files
    }

    #[test]
    fn tells_and_leaves_what_is_written_out_by_hand() {
        for transcript in examples::all() {
            assert_eq!(left_by(&transcript, transcript.before.clone()), transcript.after(0o27), "{transcript}");
        }
        for nights in nights::all() {
            let mut files = nights.before.clone();
            for (transcript, after) in nights.runs.iter().zip(nights.after(0o27)) {
                files = left_by(transcript, files);
                assert_eq!(files, after, "{nights}: {transcript}");
            }
        }
    }

    /// What is told for a line on the letter "abc".
    fn told(line: &[u8]) -> Told {
        let files = examples::files(&[("letter", "abc")], 0o600);
        let arguments = vec![b"utf7b".to_vec(), b"letter".to_vec()];
        let mut told = run(&Start { arguments, files, umask: 0, input: line.to_vec() }).told;
        assert_eq!(told.len(), 2);
        told.remove(1)
    }

    #[test]
    fn a_line_has_at_most_65535_bytes() {
        let padded = |length: usize, end: &str| [&b"undo"[..], &vec![b' '; length - 4], end.as_bytes()].concat();
        let (answer, too_long) =
            (Told::Answer(UNDO, Answer { number: 13, place: 0 }), Told::Complaint(Complaint::LineTooLong));
        for end in ["", "\n"] {
            assert_eq!(told(&padded(65_535, end)), answer);
            assert_eq!(told(&padded(65_536, end)), too_long);
            assert_eq!(told(&padded(70_000, end)), too_long);
        }
        assert_eq!(told(&padded(65_535, "\r\n")), too_long);
    }

    #[test]
    fn a_folder_has_at_most_4080_bytes_and_a_name_4095() {
        let saved = |folder: usize, rest: &str| {
            told(&[b"save ", &b"./".repeat(folder)[..folder], rest.as_bytes(), b" \r\n"].concat())
        };
        let three = Told::Answer(SAVE, Answer { number: 0, place: 3 });
        assert_eq!(saved(4_080, "n"), three);
        assert_eq!(saved(4_080, "fifteen letters"), three);
        for name in [saved(4_080, "sixteen letters."), saved(4_082, "n")] {
            assert_eq!(name, Told::Complaint(Complaint::NameTooLong));
        }
    }

    #[test]
    fn a_name_with_a_nul_is_of_no_file() {
        assert_eq!(told(b"save a\0b\n"), Told::Complaint(Complaint::NameWithNul));
    }

    #[test]
    fn a_name_that_is_no_text_is_of_no_file() {
        for name in [&b"\xFF"[..], b"\xE6\x97", b"\xC0\xAF", b"\xED\xA0\x80", b"no/\x80", b"letter/\x80"] {
            let complaint = Told::Complaint(Complaint::Save(name.to_vec(), EILSEQ));
            assert_eq!(told(&[b"save ", name].concat()), complaint);
            assert_eq!(told(&[b"keep ", name].concat()), complaint);
        }
        let three = Told::Answer(SAVE, Answer { number: 0, place: 3 });
        assert_eq!(told("save 日本".as_bytes()), three);
        assert_eq!(told(b"save a\0\xFF"), Told::Complaint(Complaint::NameWithNul));
        assert_eq!(told(&[b"save ", &[0xFF; 4_096][..]].concat()), Told::Complaint(Complaint::NameTooLong));
    }

    /// The file of a page whose letter, text and history have so many elements each.
    fn file_of(most: usize) -> Vec<u8> {
        let page = Page { kind: 1, opening: most - 1, length: most, used: most, done: most, saved: Some(most) };
        let words = [&[0, 0, 1, 0x61][..], &vec![0; most - 4]].concat();
        page_file::Content { page, arrived: vec![b'a'; most - 1], text: vec![0x61; most], history: words }.file()
    }

    /// "Every page whose letter, text and history have no more than 65,536 elements each is kept, and gone on with"
    #[test]
    fn what_had_room_before_order_10_has_room() {
        let file = file_of(65_536);
        assert!(file.len() <= 1_179_761 && 1_179_761 <= ROOM);
        let (told, _) = gone_on(b"kept", file);
        assert_eq!(told, Told::Answer(PAGE, Answer { number: 0, place: 65_535 }));
    }

    #[test]
    fn a_page_file_has_at_most_1572864_bytes() {
        let file = file_of(65_536);
        let filled = |length: usize| gone_on(b"kept", [&file[..], &vec![b'0'; length - file.len()]].concat()).0;
        for length in [file.len() + 1, file.len() + 70_000, ROOM] {
            assert_eq!(filled(length), Told::Answer(PAGE, Answer { number: 18, place: file.len() }), "{length}");
        }
        for length in [ROOM + 1, ROOM + 2, 2 * ROOM] {
            assert_eq!(filled(length), Told::Complaint(Complaint::PageFileTooLong(b"kept".to_vec())), "{length}");
        }
    }

    #[test]
    fn a_letter_has_at_most_1048576_bytes() {
        let accepted = [(65_537, (0, 65_537)), (1_048_576, (0, 1_048_576))];
        let refused = [(1_048_577, (16, 1_048_576)), (3_000_000, (16, 1_048_576))];
        for (length, answer) in accepted.into_iter().chain(refused) {
            let files = examples::files(&[("letter", &"a".repeat(length))], 0o600);
            let arguments = vec![b"jp2".to_vec(), b"letter".to_vec()];
            let end = run(&Start { arguments, files, umask: 0, input: vec![] });
            let (number, place) = answer;
            assert_eq!(end.told, [Told::Answer("desk-jp2", Answer { number, place })]);
        }
    }
}
