//! The built program, run in folders of its own.

use std::cell::{Cell, RefCell};
use std::collections::BTreeMap;
use std::ffi::OsStr;
use std::os::unix::ffi::OsStrExt;
use std::path::{self, PathBuf};
use std::process::Command;
use std::time::Duration;

use super::folder::{umask, Folder};
use super::same::{same_bytes, same_files, same_told};
use super::script::{show, Nights, Script};
use super::session::Session;
use crate::examples::desk::{self as examples, Transcript};
use crate::program::Program;
use crate::report::Statuses;
use crate::second::desk::{self as second, Complaint, Told};
use crate::second::files::Files;
use crate::second::Answer;

/// How long is waited for an answer, or for the end; and how long after that was once too short, while a script is made
/// smaller.
pub const PATIENCE: Duration = Duration::from_secs(15);
const LITTLE_PATIENCE: Duration = Duration::from_millis(500);

/// "within the usual stack of 8 MiB (`ulimit -s 8192`)"
const STACK: &str = "ulimit -s 8192";

/// How long half a line must not be answered.
const SILENCE: Duration = Duration::from_millis(20);

pub struct Desk {
    pub path: PathBuf,
    /// The umask that it has, unless a shell sets another.
    pub umask: u32,
    patience: Cell<Duration>,
    /// How often each was complained of.
    pub complaints: RefCell<BTreeMap<String, usize>>,
}

impl Desk {
    pub fn new() -> Desk {
        // It is run in other folders.
        let path = path::absolute(Program::new("desk").path).expect("a path");
        Desk { path, umask: umask(), patience: Cell::new(PATIENCE), complaints: RefCell::default() }
    }

    /// Starts it in a folder, with the stack that docs/DESK.md says; first, a shell does this, if it is anything.
    pub fn start(&self, arguments: &[Vec<u8>], folder: &Folder, first: &str) -> Result<Session, String> {
        let first = if first.is_empty() { ":" } else { first };
        let mut command = Command::new("sh");
        command.args(["-c", &format!("{STACK} && {first} && exec \"$0\" \"$@\"")]).arg(&self.path);
        command.args(arguments.iter().map(|argument| OsStr::from_bytes(argument))).current_dir(&folder.path);
        Session::start(command, self.patience.get())
    }

    /// Waits for its end, and gives what it wrote to standard output and to standard error.
    fn end<'a>(&self, session: &'a mut Session) -> Result<(&'a [u8], &'a [u8]), String> {
        session.end().inspect_err(|_| self.patience.set(LITTLE_PATIENCE))
    }

    /// Runs a script, and compares what it tells and leaves with what the second program does.
    pub fn follow(&self, script: &Script, statuses: &mut Statuses) -> Result<(), String> {
        self.follow_in(&Folder::new(&Files::default())?, &Files::default(), script, statuses).map(drop)
    }

    /// Runs scripts one after another, each in the folder that those before it left.
    pub fn follow_all(&self, nights: &Nights, statuses: &mut Statuses) -> Result<(), String> {
        let folder = Folder::new(&Files::default())?;
        let mut files = Files::default();
        for (number, script) in (1..).zip(&nights.runs) {
            let of_run = |difference| format!("in run {number}, {difference}");
            files = self.follow_in(&folder, &files, script, statuses).map_err(of_run)?;
        }
        Ok(())
    }

    /// Runs a script in a folder that holds this and what the script puts there, and gives what it holds then.
    fn follow_in(
        &self,
        folder: &Folder,
        before: &Files,
        script: &Script,
        statuses: &mut Statuses,
    ) -> Result<Files, String> {
        // The second program comes first, for it stops where a name leads out of the folder.
        let expected = second::run(&script.start_in(before, self.umask));
        folder.add(&script.files)?;
        let mut session = self.start(&script.arguments, folder, "")?;
        session.feed(&script.lines.concat());
        session.close();
        let (output, errors) = self.end(&mut session)?;
        let told = expected.all();
        same_told("standard output", &told, Told::output, output)?;
        same_told("standard error", &told, Told::errors, errors)?;
        same_files(&expected.files, &folder.files()?)?;
        self.count(&told, statuses);
        Ok(expected.files)
    }

    /// Runs a script line by line: what is told for each is waited for before the next is written.
    pub fn converse(&self, script: &Script, in_halves: bool, statuses: &mut Statuses) -> Result<(), String> {
        let start = script.start(self.umask);
        let expected = second::run(&start);
        let folder = Folder::new(&script.files)?;
        let mut session = self.start(&script.arguments, &folder, "")?;
        let (first, others) = expected.told.split_first().expect("the start");
        session.expect(&first.output(), &first.errors()).map_err(|difference| format!("at the start {difference}"))?;
        for (number, (line, told)) in (1..).zip(second::lines(&start.input).zip(others)) {
            let of_line = |difference| format!("for line {number}, {}, {difference}", show(line));
            let (half, rest) = line.split_at(if in_halves { line.len() / 2 } else { 0 });
            if in_halves {
                session.feed(half);
                session.expect_silence(SILENCE).map_err(of_line)?;
            }
            session.feed(rest);
            if !line.ends_with(b"\n") {
                session.close();
            }
            session.expect(&told.output(), &told.errors()).map_err(of_line)?;
        }
        // After a `quit` that ends it, and where the letter is not opened, it ends although its input does not.
        let is_open = matches!(first, Told::Answer(_, Answer { number: 0, .. }));
        if is_open && expected.told.last() != Some(&Told::End) {
            session.close();
        }
        let (output, errors) = (expected.last.output(), expected.last.errors());
        session.expect(&output, &errors).map_err(|difference| format!("when the input has ended {difference}"))?;
        session.end()?;
        session.nothing_more()?;
        same_files(&expected.files, &folder.files()?)?;
        self.count(&expected.all(), statuses);
        Ok(())
    }

    /// Counts what was told.
    fn count(&self, told: &[Told], statuses: &mut Statuses) {
        for told in told {
            match told {
                Told::Answer(name, answer) => statuses.count(name, answer.number),
                Told::Cells(_) => statuses.count(second::SHOW, 0),
                Told::Complaint(complaint) => {
                    *self.complaints.borrow_mut().entry(label(complaint)).or_default() += 1;
                }
                Told::Nothing | Told::End => {}
            }
        }
    }

    /// Compares what it tells and leaves with what is written out by hand, where new files have modes by this umask; a
    /// shell does something first.
    pub fn compare_transcript(&self, transcript: &Transcript, umask: u32, first: &str) -> Result<(), String> {
        let folder = Folder::new(&transcript.before)?;
        self.compare_run(transcript, &folder, first)?;
        same_files(&transcript.after(umask), &folder.files()?)
    }

    /// The same of runs one after another in one folder.
    pub fn compare_nights(&self, nights: &examples::Nights) -> Result<(), String> {
        let folder = Folder::new(&nights.before)?;
        for (number, (transcript, after)) in (1..).zip(nights.runs.iter().zip(nights.after(self.umask))) {
            let of_run = |difference| format!("in run {number}, {difference}");
            self.compare_run(transcript, &folder, "").map_err(of_run)?;
            same_files(&after, &folder.files()?).map_err(of_run)?;
        }
        Ok(())
    }

    fn compare_run(&self, transcript: &Transcript, folder: &Folder, first: &str) -> Result<(), String> {
        let mut session = self.start(&transcript.arguments, folder, first)?;
        session.feed(&transcript.input);
        session.close();
        let (output, errors) = session.end()?;
        same_bytes("standard output", &transcript.output, output)?;
        same_bytes("standard error", &transcript.errors, errors)
    }
}

/// How a complaint is counted.
fn label(complaint: &Complaint) -> String {
    let label = match complaint {
        Complaint::Use => "use",
        Complaint::Kind => "kind",
        Complaint::LetterNameTooLong => "name of the letter too long",
        Complaint::Letter(_, errno) => return format!("letter: {}", errno.text()),
        Complaint::PageFileTooLong(_) => "page file too long",
        Complaint::LineTooLong => "line too long",
        Complaint::NoSuchCommand => "no such command",
        Complaint::NothingMayFollow => "nothing may follow",
        Complaint::NotSaved => "not saved",
        Complaint::EndedNotSaved => "ended, not saved",
        Complaint::Replace => "replace",
        Complaint::Squeeze => "squeeze",
        Complaint::NameMissing => "name missing",
        Complaint::KeepNameMissing => "name missing to keep",
        Complaint::NameTooLong => "name too long",
        Complaint::NameWithNul => "name with a NUL",
        Complaint::Save(_, errno) => return format!("FILE: {}", errno.text()),
        Complaint::Directory(_) => "a directory",
        Complaint::ReadOnly(_) => "read-only",
        Complaint::Beside(_, errno) => return format!("beside FILE: {}", errno.text()),
    };
    label.to_string()
}
