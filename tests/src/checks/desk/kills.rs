//! Saves and keeps that are killed, at each of their system calls and at any time; calls that fail or are interrupted.
//! The file is there after each, old or new and whole, and the next save is done.

use std::cell::Cell;
use std::collections::BTreeSet;
use std::fs::{self, File};
use std::io;
use std::os::unix::fs::{chown, MetadataExt};
use std::process::Command;
use std::thread;
use std::time::Duration;

use super::built::Desk;
use super::folder::Folder;
use super::harm::{Put, Tried, ENDED, KEEP, SAVE, TOLD};
use super::standing::{contents, same_standing, standing, Standing};
use super::trace::{trace, Act, Call, FSYNC, OPENAT, READ, RENAME, UNLINK, WRITE};
use crate::examples::desk::{files, words};
use crate::report::Report;
use crate::rng::Rng;
use crate::second::desk::{self as second, Start};
use crate::second::files::Entry;

const EINTR: i32 = 4;
const EACCES: i32 = 13;
const ENOSPC: i32 = 28;

/// The calls that are interrupted.
const INTERRUPTED: [u64; 3] = [READ, WRITE, FSYNC];

/// Modes of the file that is saved to; of none where there is no such file.
const MODES: [Option<u32>; 3] = [None, Some(0o600), Some(0o640)];

pub fn run(report: &mut Report, desk: &Desk, seed: u64) {
    for put in [SAVE, KEEP] {
        of_put(report, desk, put, seed);
    }
}

fn of_put(report: &mut Report, desk: &Desk, put: Put, seed: u64) {
    let word = put.word;
    let mut check = |name: &str, what: &str, run: &dyn Fn(&Saves) -> Result<usize, Trouble>| {
        let name = if word == SAVE.word { format!("desk-{name}") } else { format!("desk-{word}-{name}") };
        report.check(&name, what, |_| match Saves::new(desk, put).and_then(|saves| run(&saves)) {
            Ok(count) => Ok(count),
            Err(Trouble::Found(problem)) => Err(problem),
            // A machine that lets no program be traced cannot try this.
            Err(Trouble::Untraced(error)) => {
                println!("{name} is not tried: no program can be traced here: {error}");
                Ok(0)
            }
        });
    };
    let what = format!("{word}s whose new file is synced before it takes its name, and the folder after");
    check("synced", &what, &|saves| saves.on_each(Saves::synced));
    check("killed", &format!("{word}s killed at each of their system calls"), &|saves| saves.on_each(Saves::killed));
    check("failed", &format!("{word}s of which a system call fails"), &|saves| saves.on_each(Saves::failed));
    let what = format!("reads, writes and syncs of {word}s that are interrupted");
    check("interrupted", &what, &|saves| saves.on_each(Saves::interrupted));
    check("killed-at-any-time", &format!("{word}s killed at any time"), &|saves| saves.killed_at_any_time(seed));
}

enum Trouble {
    Found(String),
    Untraced(io::Error),
}

impl From<String> for Trouble {
    fn from(problem: String) -> Trouble {
        Trouble::Found(problem)
    }
}

struct Saves {
    tried: Tried,
}

/// What was seen of a desk that was traced.
struct Seen {
    calls: Vec<u64>,
    output: Vec<u8>,
    errors: Vec<u8>,
}

impl Saves {
    fn new(desk: &Desk, put: Put) -> Result<Saves, Trouble> {
        Ok(Saves { tried: Tried::new(desk, put)? })
    }

    fn put(&self) -> Put {
        self.tried.put
    }

    /// Whether this is all that is told and said by a desk that has put the file.
    fn is_done(&self, output: &[u8], errors: &[u8]) -> bool {
        output == self.put().told().as_bytes() && errors == self.put().ended(true).as_bytes()
    }

    fn on_each(&self, run: impl Fn(&Saves, Option<u32>) -> Result<usize, Trouble>) -> Result<usize, Trouble> {
        let mut count = 0;
        for mode in MODES {
            count += run(self, mode).map_err(|trouble| match trouble {
                Trouble::Found(problem) => Trouble::Found(format!("with {} at FILE, {problem}", name(mode))),
                trouble => trouble,
            })?;
        }
        Ok(count)
    }

    /// A folder with a letter, a file that a save might take for its own, and the file that is saved to.
    fn folder(&self, mode: Option<u32>) -> Result<Folder, String> {
        let letter = self.put().letter;
        let mut all = files(&[("letter", letter), ("f.new", "another's"), ("desk.new.aaaaaa", "another's")], 0o644);
        all.entries.extend(mode.into_iter().flat_map(|mode| files(&[("f", "old")], mode).entries));
        let folder = Folder::new(&all)?;
        // Where it can be, the file is of another group than new files are.
        if mode.is_some() {
            let _ = chown(folder.path.join("f"), None, Some(1));
        }
        Ok(folder)
    }

    fn command(&self, folder: &Folder, input: &str) -> io::Result<Command> {
        // Its streams are files elsewhere.
        let [input_path, output, errors] = ["in", "out", "err"].map(|name| self.tried.place.path.join(name));
        fs::write(&input_path, input)?;
        let mut command = Command::new(&self.tried.program);
        command.args([self.put().begin, "letter"]).current_dir(&folder.path);
        command.stdin(File::open(input_path)?).stdout(File::create(output)?).stderr(File::create(errors)?);
        Ok(command)
    }

    fn written(&self) -> io::Result<[Vec<u8>; 2]> {
        let [output, errors] = ["out", "err"].map(|name| fs::read(self.tried.place.path.join(name)));
        Ok([output?, errors?])
    }

    /// Runs a save, and does at its calls, counted from the open of the letter on, what is asked for. At each call no
    /// new file may be read by more than the old one.
    fn traced(&self, folder: &Folder, mode: Option<u32>, act: impl Fn(usize, &Call) -> Act) -> Result<Seen, Trouble> {
        let mut command = self.command(folder, &self.put().lines("f")).map_err(Trouble::Untraced)?;
        let (mut calls, mut open) = (Vec::new(), Ok(()));
        let old = standing(&folder.path)?;
        let done = trace(&mut command, |call| {
            if calls.is_empty() && !(call.number == OPENAT && call.names(1, b"letter\0")) {
                return Act::Go;
            }
            if let (Some(mode), Ok(())) = (mode, &open) {
                open = private(folder, &old, mode);
            }
            calls.push(call.number);
            act(calls.len() - 1, call)
        });
        done.map_err(Trouble::Untraced)?;
        open?;
        let [output, errors] = self.written().map_err(Trouble::Untraced)?;
        Ok(Seen { calls, output, errors })
    }

    /// How many calls a save makes, which are made again and again.
    fn calls(&self, mode: Option<u32>) -> Result<Vec<u64>, Trouble> {
        let folder = self.folder(mode)?;
        let seen = self.traced(&folder, mode, |_, _| Act::Go)?;
        if !self.is_done(&seen.output, &seen.errors) {
            return Err(format!("a save that is only watched tells {}", seen.output.escape_ascii()).into());
        }
        self.settled(&folder, mode, true)?;
        Ok(seen.calls)
    }

    /// That all stands as it is to after a save that was done or not; new files that were left behind are told.
    fn settled(&self, folder: &Folder, mode: Option<u32>, done: bool) -> Result<BTreeSet<String>, Trouble> {
        let (found, mut expected) = (standing(&folder.path)?, standing(&self.folder(mode)?.path)?);
        if done {
            let text = contents(self.put().new.as_bytes());
            let line = match expected.get("f") {
                // All that is known of the old file is kept, but its text.
                Some(line) => line.replace("\"old\"", &text),
                None => expected["letter"]
                    .replace(&contents(self.put().letter.as_bytes()), &text)
                    .replace(", 644 of", &format!(", {:o} of", self.new_mode())),
            };
            expected.insert("f".to_string(), line);
        }
        let left: BTreeSet<String> = found.keys().filter(|path| !expected.contains_key(*path)).cloned().collect();
        if let Some(path) = left.iter().find(|path| !is_new(path)) {
            return Err(format!("{path} is there too").into());
        }
        let kept: Standing = found.into_iter().filter(|(path, _)| !left.contains(path)).collect();
        same_standing(&expected, &kept)?;
        Ok(left)
    }

    fn new_mode(&self) -> u32 {
        0o666 & !super::folder::umask()
    }

    /// After a kill or a fault: the file is the old one or the new one, and the next save is done and harms nothing.
    fn whole(&self, folder: &Folder, mode: Option<u32>) -> Result<(), Trouble> {
        let left = match self.settled(folder, mode, false) {
            Err(Trouble::Found(_)) => self.settled(folder, mode, true)?,
            settled => settled?,
        };
        let before = standing(&folder.path)?;
        let status = self.command(folder, &self.put().lines("f")).and_then(|mut command| command.status());
        status.map_err(|error| format!("desk cannot be run again: {error}"))?;
        let [output, errors] = self.written().map_err(|error| error.to_string())?;
        if !self.is_done(&output, &errors) {
            return Err(format!("the next save says {}", errors.escape_ascii()).into());
        }
        self.settled(folder, mode, true)?;
        let after = standing(&folder.path)?;
        match left.iter().find(|path| before.get(*path) != after.get(*path)) {
            Some(path) => Err(format!("the next save changed {path}").into()),
            None => Ok(()),
        }
    }

    fn synced(&self, mode: Option<u32>) -> Result<usize, Trouble> {
        let calls = self.calls(mode)?;
        let of_save: Vec<u64> = calls.into_iter().filter(|call| [FSYNC, RENAME].contains(call)).collect();
        if of_save != [FSYNC, RENAME, FSYNC] {
            return Err(format!("its syncs and renames are {of_save:?}").into());
        }
        Ok(1)
    }

    fn killed(&self, mode: Option<u32>) -> Result<usize, Trouble> {
        let calls = self.calls(mode)?;
        for killed in 0..calls.len() {
            let at = |problem| at_call("killed", killed, calls[killed], problem);
            let folder = self.folder(mode)?;
            self.traced(&folder, mode, |count, _| if count == killed { Act::Kill } else { Act::Go }).map_err(at)?;
            self.whole(&folder, mode).map_err(at)?;
        }
        Ok(calls.len())
    }

    /// Where a call fails, either the answer is told and the file is new, or there is a complaint and all is as it was.
    fn failed(&self, mode: Option<u32>) -> Result<usize, Trouble> {
        let calls = self.calls(mode)?;
        let mut count = 0;
        for failing in 0..calls.len() {
            for error in [ENOSPC, EACCES] {
                let at = |problem| at_call(&format!("failing with {error}"), failing, calls[failing], problem);
                let folder = self.folder(mode)?;
                // A call more or less, as for a random number, moves the others: what counts is the one that failed.
                let (to_streams, unlinks) = (&Cell::new(false), &Cell::new(false));
                let seen = self.traced(&folder, mode, |number, call| {
                    if number != failing {
                        return Act::Go;
                    }
                    to_streams.set(call.number == WRITE && call.arguments[0] < 3);
                    unlinks.set(call.number == UNLINK);
                    Act::Fail(error)
                });
                let seen = seen.map_err(at)?;
                if !to_streams.get() {
                    let told = seen.output.ends_with(self.put().told().as_bytes());
                    let left = self.settled(&folder, mode, told).map_err(at)?;
                    // A page that was changed and is not saved is spoken of in the end.
                    let ended = seen.errors.strip_suffix(ENDED.as_bytes());
                    let is_lost = self.put().ended(told) == ENDED && seen.output.starts_with(TOLD.as_bytes());
                    let complaint = ended.unwrap_or(&seen.errors);
                    let lines = complaint.split_inclusive(|&byte| byte == b'\n').count();
                    let complains = lines == 1 && complaint.starts_with(b"desk: ");
                    let is_said = (told || complains) && lines <= 1 && ended.is_some() == is_lost;
                    if !is_said || !left.is_empty() && !unlinks.get() {
                        return Err(at(format!("it says {}, {left:?}", seen.errors.escape_ascii()).into()));
                    }
                }
                self.whole(&folder, mode).map_err(at)?;
                count += 1;
            }
        }
        Ok(count)
    }

    /// A read, a write or a sync that is interrupted before it has done anything changes nothing.
    fn interrupted(&self, mode: Option<u32>) -> Result<usize, Trouble> {
        let calls = self.calls(mode)?;
        let numbers = (0..calls.len()).filter(|&number| INTERRUPTED.contains(&calls[number]));
        let mut count = 0;
        for interrupted in numbers {
            let at = |problem| at_call("interrupted", interrupted, calls[interrupted], problem);
            let folder = self.folder(mode)?;
            // Three times in a row. A call more or less, as to read the clock, moves the others.
            let act = |number: usize, call: &Call| {
                let is_interrupted =
                    (interrupted..interrupted + 3).contains(&number) && INTERRUPTED.contains(&call.number);
                if is_interrupted {
                    Act::Fail(EINTR)
                } else {
                    Act::Go
                }
            };
            let seen = self.traced(&folder, mode, act).map_err(at)?;
            if !self.is_done(&seen.output, &seen.errors) {
                return Err(at(format!("it says {}", seen.errors.escape_ascii()).into()));
            }
            if !self.settled(&folder, mode, true).map_err(at)?.is_empty() {
                return Err(at("a new file is left".to_string().into()));
            }
            count += 1;
        }
        Ok(count)
    }

    /// Saves of a long letter, or keeps of its page, again and again, until desk is killed.
    fn killed_at_any_time(&self, seed: u64) -> Result<usize, Trouble> {
        let mut rng = Rng::new(seed, "desk kills");
        let word = self.put().word;
        let letter = "a".repeat(60_000);
        let round = |names: [&str; 3]| {
            let [first, changed, back] = names.map(|name| format!("{word} {name}\n"));
            format!("{first}replace 0 1 58\n{changed}undo\n{back}")
        };
        let first = self.put().of_letter(&letter);
        let texts = self.texts(&first, &round(["1", "2", "3"]));
        let count = 40;
        for _ in 0..count {
            let folder = Folder::new(&files(&[("letter", &first), ("f", &first)], 0o600))?;
            let input = round(["f"; 3]).repeat(30);
            let mut command = self.command(&folder, &input).map_err(|error| error.to_string())?;
            let mut child = command.spawn().map_err(|error| error.to_string())?;
            thread::sleep(Duration::from_micros(rng.below(40_000) as u64));
            child.kill().and_then(|()| child.wait()).map_err(|error| error.to_string())?;
            let found = fs::read(folder.path.join("f")).map_err(|error| format!("the file is gone: {error}"))?;
            if !texts.contains(&found) {
                return Err(format!("the file has {} bytes", found.len()).into());
            }
            let status = self.command(&folder, &format!("{word} f\n")).and_then(|mut command| command.status());
            status.map_err(|error| format!("desk cannot be run again: {error}"))?;
            let [output, _] = self.written().map_err(|error| error.to_string())?;
            let told = format!("status=0\ncount=60000\nstatus=0\ncount={}\n", first.len());
            if output != told.as_bytes() || fs::read_to_string(folder.path.join("f")).ok().as_ref() != Some(&first) {
                return Err("the next save is not done".to_string().into());
            }
        }
        Ok(count)
    }

    /// What the second program puts for these lines on this letter or page file, in the order of the names.
    fn texts(&self, letter: &str, lines: &str) -> Vec<Vec<u8>> {
        let arguments = words(&[self.put().begin, "letter"]);
        let before = files(&[("letter", letter)], 0o600);
        let start = Start { arguments, files: before, umask: 0, input: lines.as_bytes().to_vec() };
        let found = second::run(&start).files.entries.into_iter().filter(|(path, _)| path != b"letter");
        found.filter_map(|(_, entry)| if let Entry::File { bytes, .. } = entry { Some(bytes) } else { None }).collect()
    }
}

fn name(mode: Option<u32>) -> String {
    mode.map_or("nothing".to_string(), |mode| format!("mode {mode:o}"))
}

fn at_call(what: &str, place: usize, number: u64, trouble: Trouble) -> Trouble {
    match trouble {
        Trouble::Found(problem) => Trouble::Found(format!("{what} at call {place}, of number {number}: {problem}")),
        trouble => trouble,
    }
}

/// Whether this is the name of a file that a save makes.
fn is_new(path: &str) -> bool {
    path.strip_prefix("desk.new.")
        .is_some_and(|rest| rest.len() == 6 && rest.bytes().all(|byte| byte.is_ascii_alphanumeric()))
}

/// That none but the owner may do more with a new file than with the old one.
fn private(folder: &Folder, old: &Standing, mode: u32) -> Result<(), String> {
    for found in fs::read_dir(&folder.path).map_err(|error| error.to_string())?.flatten() {
        let name = found.file_name().to_string_lossy().into_owned();
        let Ok(data) = found.metadata() else { continue };
        let more = data.mode() & 0o077 & !mode;
        if !old.contains_key(&name) && more != 0 {
            return Err(format!("{name} has the mode {:o}", data.mode() & 0o7777));
        }
    }
    Ok(())
}
