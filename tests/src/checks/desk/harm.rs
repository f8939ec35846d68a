//! What a save leaves alone, and what it keeps of the file that it replaces: for root and for nobody, or for whoever
//! runs the tests. A keep is held to the same.

use std::fmt::{self, Display, Formatter};
use std::fs::{self, Permissions};
use std::os::unix::fs::{self as unix, MetadataExt, PermissionsExt};
use std::os::unix::net::UnixListener;
use std::os::unix::process::CommandExt;
use std::path::{Path, PathBuf};
use std::process::{Command, Stdio};

use super::built::Desk;
use super::folder::Folder;
use super::same::same_bytes;
use super::session::Session;
use super::standing::{file, same_standing, standing};
use crate::examples::desk::files;
use crate::examples::nights;
use crate::report::Report;
use crate::second::page::Page;
use crate::second::page_file::Content;
use crate::second::Kind;
use crate::trial::try_examples;
use Outcome::{Kept, Saved, Warned};

/// Whoever runs desk.
#[derive(Clone, Copy)]
pub struct Saver {
    name: &'static str,
    user: u32,
    group: u32,
}

const ROOT: Saver = Saver { name: "root", user: 0, group: 0 };
const NOBODY: Saver = Saver { name: "nobody", user: 65_534, group: 65_534 };

/// Another user and group, who has nothing to do with these.
const OTHER: &str = "1:1";

impl Saver {
    /// Root and nobody if root runs the tests; else whoever does.
    fn all(folder: &Folder) -> Result<Vec<Saver>, String> {
        let data = fs::metadata(&folder.path).map_err(|error| error.to_string())?;
        Ok(match data.uid() {
            0 => vec![ROOT, NOBODY],
            user => vec![Saver { name: "whoever runs the tests", user, group: data.gid() }],
        })
    }

    fn owner(&self) -> String {
        format!("{}:{}", self.user, self.group)
    }
}

/// What is expected of a save: FILE has the new text, a mode and an owner ("" for the saver); the same, with a
/// complaint; or all stands as it did, with a complaint. The complaint stands after `desk: FILE: `.
#[derive(Clone, Copy)]
enum Outcome {
    Saved(u32, &'static str),
    Warned(u32, &'static str, &'static str),
    Kept(&'static str),
}

/// A save that meets what a script has made, with its outcome for root, and for nobody or whoever runs the tests.
struct Case {
    name: &'static str,
    /// Of a shell, in which `put FILE MODE OWNER` makes a file; OWNER is the saver if it is missing.
    script: &'static str,
    save: &'static str,
    root: Outcome,
    nobody: Outcome,
}

impl Display for Case {
    fn fmt(&self, f: &mut Formatter) -> fmt::Result {
        write!(f, "{}", self.name)
    }
}

fn both(name: &'static str, script: &'static str, outcome: Outcome) -> Case {
    Case { name, script, save: "f", root: outcome, nobody: outcome }
}

/// A case that only root can make.
fn each(name: &'static str, script: &'static str, save: &'static str, root: Outcome, nobody: Outcome) -> Case {
    Case { name, script, save, root, nobody }
}

const LINK: Outcome = Kept("is a symbolic link: save to the name of the file that it leads to");
const NAMES: Outcome = Kept("has other names too (hard links): save to another name");
const READ_ONLY: Outcome = Kept("is read-only: save to another name");

fn of_the_saver() -> Vec<Case> {
    vec![
        both("a private file", "put f 600", Saved(0o600, "")),
        both("a file of a group", "put f 660", Saved(0o660, "")),
        both("a file that all may read", "put f 644", Saved(0o644, "")),
        both("a file that all may write", "put f 666", Saved(0o666, "")),
        both("a file with every bit", "put f 7777", Saved(0o7777, "")),
        both("a read-only file", "put f 444", READ_ONLY),
        both("a private read-only file", "put f 400", READ_ONLY),
        both("a symbolic link", "put t 600; ln -s t f", LINK),
        both("a symbolic link that leads nowhere", "ln -s t f", LINK),
        both("a symbolic link to a folder", "mkdir t; ln -s t f", LINK),
        both("a symbolic link to itself", "ln -s f f", LINK),
        both("a file with two names", "put f 600; ln f g", NAMES),
        both("a named pipe", "mkfifo f", Kept("is a named pipe: save to another name")),
        both("a socket", "socket", Kept("is a socket: save to another name")),
        both("a directory", "mkdir f", Kept("is a directory: save to another name")),
        both(
            "names that a save might use",
            "put f 640; put f.new 600; put desk.new 600; put desk.new.aaaaaa 600; mkdir desk.new.XXXXXX",
            Saved(0o640, ""),
        ),
    ]
}

/// These take root to be made, or are seen by it alone.
fn of_others() -> Vec<Case> {
    let denied = Kept("Permission denied");
    let no_file = Kept("no new file can be made beside it: Permission denied");
    let not_synced = "saved, but its folder could not be synced: Permission denied";
    let not_permitted = Kept("Operation not permitted");
    vec![
        each("a file that only others may read", "put f 206", "f", Saved(0o206, ""), Saved(0o206, "")),
        each("another's private file", "put f 600 1:1", "f", Saved(0o600, OTHER), denied),
        each("another's file that all may read", "put f 644 1:1", "f", Saved(0o644, OTHER), denied),
        each("another's file that all may write", "put f 666 1:1", "f", Saved(0o666, OTHER), Saved(0o666, "")),
        each("another's file with every bit", "put f 7777 1:1", "f", Saved(0o7777, OTHER), Saved(0o777, "")),
        each("another's file, its group above the others", "put f 662 1:1", "f", Saved(0o662, OTHER), Saved(0o622, "")),
        each("another's file, its group below the others", "put f 646 1:1", "f", Saved(0o646, OTHER), Saved(0o646, "")),
        each("another's file in the saver's group", "put f 660 1:$GROUP", "f", Saved(0o660, "1:"), Saved(0o660, "")),
        each(
            "a file in a folder that may not be written",
            "mkdir d; put d/f 644; chmod 555 d; chown $ME d",
            "d/f",
            Saved(0o644, ""),
            no_file,
        ),
        each(
            "a file in a folder that may not be read",
            "mkdir d; put d/f 644; chmod 333 d; chown $ME d",
            "d/f",
            Saved(0o644, ""),
            Warned(0o644, "", not_synced),
        ),
        each(
            "a file in a folder that may not be entered",
            "mkdir d; put d/f 644; chmod 0 d; chown $ME d",
            "d/f",
            Saved(0o644, ""),
            denied,
        ),
        each(
            "another's file in another's sticky folder",
            "mkdir d; put d/f 666 1:1; chown 1:1 d; chmod 1777 d",
            "d/f",
            Saved(0o666, OTHER),
            not_permitted,
        ),
    ]
}

pub fn run(report: &mut Report, desk: &Desk) {
    for put in [SAVE, KEEP] {
        let mut check = |name: &str, what: &str, run: &dyn Fn(&Tried) -> Result<usize, String>| {
            let name = if put.saves { format!("desk-{name}") } else { format!("desk-{}-{name}", put.word) };
            report.check(&name, &format!("{}s {what}", put.word), |_| run(&Tried::new(desk, put)?));
        };
        check("harm", "that meet what is no file to be replaced, and files whose mode is kept", &|tried| {
            tried.compare_all(&of_the_saver(), Saver::all(&tried.place)?)
        });
        check("harm-others", "that meet files and folders of others", &|tried| {
            let savers = Saver::all(&tried.place)?;
            tried.compare_all(&of_others(), if savers.len() == 2 { savers } else { vec![] })
        });
        check("harm-devices", "to devices", &Tried::devices);
        check("harm-full", "on a disk that is full, where one can be mounted", &Tried::full);
        check("harm-gone", "in a folder that is gone", &|tried| tried.gone().map(|()| 1));
    }
}

/// What a letter "abc" is when its first cell is replaced, and the page file then.
const LETTER: &str = "abc";
const NEW: &str = "Xbc";
const KEPT: &str = "form=1
kind=utf7b
opening=00003
length=00003
used=00005
done=00005
saved=00000
arrived=616263
text=000000580000006200000063
history=0000000000000001000000010000006100000058
";

/// A command that puts a file. A save is tried on a letter; a keep on a page that was kept, so that this is read too.
#[derive(Clone, Copy)]
pub struct Put {
    pub word: &'static str,
    /// The first argument, and the file that it is started on.
    pub begin: &'static str,
    pub letter: &'static str,
    /// What is put when the first cell is replaced, and the answer then.
    pub new: &'static str,
    answer: &'static str,
    /// Whether the page is saved by it.
    saves: bool,
    /// For how long a letter a file of 20,000 bytes or a little more is put.
    long: usize,
}

pub const SAVE: Put = Put {
    word: "save",
    begin: "utf7b",
    letter: LETTER,
    new: NEW,
    answer: "status=0\ncount=3\n",
    saves: true,
    long: 20_000,
};

pub const KEEP: Put = Put {
    word: "keep",
    begin: "page",
    letter: nights::OPENED,
    new: KEPT,
    answer: "status=0\ncount=173\n",
    saves: false,
    long: 2_000,
};

impl Put {
    /// The lines that replace the cell and put the new file under this name.
    pub fn lines(&self, name: &str) -> String {
        format!("replace 0 1 58\n{} {name}\n", self.word)
    }

    /// What is said at the end of the input, where it was put or not.
    pub fn ended(&self, done: bool) -> &'static str {
        if done && self.saves {
            ""
        } else {
            ENDED
        }
    }

    /// What is told for those lines, the letter's answer first.
    pub fn told(&self) -> String {
        format!("{TOLD}{}", self.answer)
    }

    /// What it puts of a letter of plain bytes that was only opened; and what it is started on.
    pub fn of_letter(&self, letter: &str) -> String {
        if self.saves {
            return letter.to_string();
        }
        let page = Page::opened(Kind::Utf7Body, letter.len());
        let text = letter.bytes().map(u32::from).collect();
        let file = Content { page, arrived: letter.as_bytes().to_vec(), text, history: vec![] }.file();
        String::from_utf8(file).expect("a page file")
    }
}

/// What is said when the input has ended on a page that is not saved.
pub const ENDED: &str = "desk: the input has ended, and the page is not saved\n";
pub const TOLD: &str = "status=0\ncount=3\nstatus=0\ncount=3\n";
const OPENED: &str = "status=0\ncount=3\n";

/// A copy of desk that everybody may run, beside a letter or a page file that everybody may read.
pub struct Tried {
    pub place: Folder,
    pub program: PathBuf,
    pub put: Put,
}

impl Tried {
    pub fn new(desk: &Desk, put: Put) -> Result<Tried, String> {
        let place = Folder::new(&files(&[("letter", put.letter)], 0o644))?;
        let program = place.path.join("desk");
        // By another program: a file that this one has open to write cannot be run, and what it starts just then has
        // it open too.
        match Command::new("cp").args([&desk.path, &program]).status() {
            Ok(status) if status.success() => {}
            _ => return Err("desk cannot be copied".to_string()),
        }
        for (path, mode) in [(&place.path, 0o755), (&program, 0o755)] {
            fs::set_permissions(path, Permissions::from_mode(mode)).map_err(|error| error.to_string())?;
        }
        Ok(Tried { place, program, put })
    }

    /// A new folder of the saver's, with what a script makes there.
    fn made(&self, saver: Saver, script: &str) -> Result<Folder, String> {
        let folder = Folder::new(&files(&[], 0))?;
        unix::chown(&folder.path, Some(saver.user), Some(saver.group)).map_err(|error| error.to_string())?;
        if script == "socket" {
            UnixListener::bind(folder.path.join("f")).map_err(|error| format!("no socket: {error}"))?;
            return Ok(folder);
        }
        let put = "put() { printf old > $1; chown ${3:-$ME} $1; chmod $2 $1; }";
        let status = Command::new("sh")
            .args(["-e", "-c", &format!("{put}; {script}")])
            .current_dir(&folder.path)
            .env("ME", saver.owner())
            .env("GROUP", saver.group.to_string())
            .status();
        match status {
            Ok(status) if status.success() => Ok(folder),
            _ => Err(format!("a shell cannot do {script}")),
        }
    }

    /// Desk, as this user, in a folder.
    fn start(&self, saver: Saver, folder: &Path) -> Result<Session, String> {
        let mut command = Command::new(&self.program);
        command.arg(self.put.begin).arg(self.place.path.join("letter")).current_dir(folder);
        if saver.user != ROOT.user {
            command.uid(saver.user).gid(saver.group);
        }
        Session::start(command, super::built::PATIENCE)
    }

    /// What is told for the lines that end in this name.
    fn told(&self, saver: Saver, folder: &Path, name: &str) -> Result<(Vec<u8>, Vec<u8>), String> {
        let mut session = self.start(saver, folder)?;
        session.feed(self.put.lines(name).as_bytes());
        session.close();
        session.end().map(|(output, errors)| (output.to_vec(), errors.to_vec()))
    }

    fn compare_all(&self, cases: &[Case], savers: Vec<Saver>) -> Result<usize, String> {
        let of_all = savers.iter().map(|saver| {
            try_examples(cases, |case| self.compare(case, *saver)).map_err(|what| format!("as {}, {what}", saver.name))
        });
        of_all.sum()
    }

    fn compare(&self, case: &Case, saver: Saver) -> Result<(), String> {
        let folder = self.made(saver, case.script)?;
        let mut expected = standing(&folder.path)?;
        let (output, errors) = self.told(saver, &folder.path, case.save)?;
        let outcome = if saver.user == ROOT.user { case.root } else { case.nobody };
        let (saved, complaint) = match outcome {
            Saved(mode, owner) => (Some((mode, owner)), ""),
            Warned(mode, owner, complaint) => (Some((mode, owner)), complaint),
            Kept(complaint) => (None, complaint),
        };
        if let Some((mode, owner)) = saved {
            let owner = match owner {
                "" => saver.owner(),
                "1:" => format!("1:{}", saver.group),
                owner => owner.to_string(),
            };
            expected.insert(case.save.to_string(), file(mode, &owner, 1, self.put.new.as_bytes()));
        }
        let told = if saved.is_some() { self.put.told() } else { TOLD.to_string() };
        same_bytes("standard output", told.as_bytes(), &output)?;
        let said = if complaint.is_empty() { String::new() } else { format!("desk: {}: {complaint}\n", case.save) };
        // A save that is not done leaves the page not saved.
        let said = said + self.put.ended(saved.is_some());
        same_bytes("standard error", said.as_bytes(), &errors)?;
        same_standing(&expected, &standing(&folder.path)?)
    }

    /// A device of its own, where one can be made; and the null device, which root would harm if this failed.
    fn devices(&self) -> Result<usize, String> {
        let device = Kept("is a device: save to another name");
        let mut count = 0;
        for saver in Saver::all(&self.place)? {
            let made = each("a device", "mknod f c 1 3", "f", device, device);
            if self.made(saver, made.script).is_ok() {
                self.compare(&made, saver).map_err(|what| format!("as {}, {what}", saver.name))?;
                count += 1;
            }
            if saver.user != ROOT.user {
                self.compare(&each("the null device", "", "/dev/null", device, device), saver)?;
                count += 1;
            }
        }
        Ok(count)
    }

    /// A small disk is filled, and then emptied for a save that is done.
    fn full(&self) -> Result<usize, String> {
        let mut count = 0;
        for saver in Saver::all(&self.place)? {
            let folder = self.made(saver, "")?;
            let Some(disk) = Disk::mount(&folder.path) else { continue };
            let [path, filling] = ["f", "filling"].map(|name| disk.path.join(name));
            let letter = "a".repeat(self.put.long);
            let file = self.put.of_letter(&letter);
            let lines = |more: &str| format!("{} f\n{more}", self.put.word);
            let written = fs::write(&path, "old").and_then(|()| fs::write(&filling, [0; 61_000]));
            written
                .and_then(|()| fs::write(self.place.path.join("letter"), &file))
                .map_err(|error| error.to_string())?;
            unix::chown(&path, Some(saver.user), Some(saver.group)).map_err(|error| error.to_string())?;
            let before = standing(&disk.path)?;
            let mut session = self.start(saver, &disk.path)?;
            session.expect(format!("status=0\ncount={}\n", letter.len()).as_bytes(), b"")?;
            // The next line is answered when all is done for this one.
            session.feed(lines("undo\n").as_bytes());
            session.expect(b"status=13\nplace=0\n", b"desk: f: No space left on device\n")?;
            same_standing(&before, &standing(&disk.path)?)?;
            fs::remove_file(&filling).map_err(|error| error.to_string())?;
            session.feed(lines("").as_bytes());
            session.expect(format!("status=0\ncount={}\n", file.len()).as_bytes(), b"")?;
            session.close();
            session.end()?;
            let saved = fs::read(&path).map_err(|error| error.to_string())?;
            same_bytes("the file", file.as_bytes(), &saved)?;
            count += 1;
        }
        Ok(count)
    }

    /// Its folder is removed while it waits for a line; a save elsewhere is done after that.
    fn gone(&self) -> Result<(), String> {
        for saver in Saver::all(&self.place)? {
            let folder = self.made(saver, "mkdir d; chown $ME d")?;
            let inner = folder.path.join("d");
            let mut session = self.start(saver, &inner)?;
            session.expect(OPENED.as_bytes(), b"")?;
            fs::remove_dir(&inner).map_err(|error| error.to_string())?;
            let complaint = "desk: f: no new file can be made beside it: No such file or directory\n";
            session.feed(format!("{} f\n", self.put.word).as_bytes());
            session.expect(b"", complaint.as_bytes())?;
            session.feed(format!("{} {}\n", self.put.word, folder.path.join("f").display()).as_bytes());
            session.expect(format!("status=0\ncount={}\n", self.put.of_letter(LETTER).len()).as_bytes(), b"")?;
            session.close();
            session.end()?;
            session.nothing_more()?;
        }
        Ok(())
    }
}

/// A disk of 64 KiB that is mounted on a folder, until it is dropped.
struct Disk<'a> {
    path: &'a Path,
}

impl Disk<'_> {
    /// None where the machine does not let one be mounted.
    fn mount(path: &Path) -> Option<Disk<'_>> {
        let options = ["-t", "tmpfs", "-o", "size=64k,mode=777", "tmpfs"];
        let status = Command::new("mount").args(options).arg(path).stderr(Stdio::null()).status();
        status.is_ok_and(|status| status.success()).then_some(Disk { path })
    }
}

impl Drop for Disk<'_> {
    fn drop(&mut self) {
        // A disk that stays is left to whoever looks after the machine.
        let _ = Command::new("umount").arg(self.path).status();
    }
}
