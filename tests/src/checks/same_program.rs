//! The built program `same_letter`, run on two files of a folder of its own.

use std::ffi::OsStr;
use std::os::unix::ffi::OsStrExt;
use std::path::{Path, PathBuf};
use std::process::{self, Command};
use std::sync::atomic::{AtomicUsize, Ordering};
use std::{env, fs, path};

use super::joining::Pair;
use super::same_letter::{at_limit, nearly_same, number, seeded, with_faults};
use crate::examples::compare::{examples, Example};
use crate::formats::{self, Format};
use crate::program::Program;
use crate::report::{Report, Statuses};
use crate::second::compare::{compare, print, Comparison};
use crate::trial::try_all;

const NAME: &str = "same_letter";
const USE: &str = "same_letter: use: same_letter KIND FILE FILE, where KIND is utf7, jp2 or mailbox\n";
const KINDS: &str = "same_letter: KIND is utf7, jp2 or mailbox\n";

pub fn run(report: &mut Report, seed: u64) {
    let program = SameLetter::new();
    for format in formats::all() {
        report.check(&format!("same-letter-program-{}-examples", format.name), "examples", |statuses| {
            program.examples(&format, statuses)
        });
        let mut check = |name: &str, what: &str, pairs: &mut dyn Iterator<Item = Pair>| {
            let name = format!("same-letter-program-{}-{name}", format.name);
            report.check(&name, what, |statuses| program.as_second(&format, pairs, statuses));
        };
        let source = format.source;
        check("seeded", "pairs of files, whole and damaged", &mut seeded(source, seed).take(150));
        check("behind", "pairs of files with a fault put behind one or both", &mut with_faults(source, seed).take(150));
        let what = "lists of cells that differ a little, in two spellings";
        check("near", what, &mut nearly_same(&format, seed).take(150));
        check("limit", "files at the limit and one off it", &mut at_limit(source));
    }
    report.check("same-letter-program-starts", "starts that fail, by what is complained of", |_| program.starts());
    for format in formats::all() {
        report.expect_statuses(NAME, &format.statuses(&[0, 16]));
    }
}

/// The program, and a folder for its files.
struct SameLetter {
    path: PathBuf,
    folder: PathBuf,
}

impl Drop for SameLetter {
    fn drop(&mut self) {
        let _ = fs::remove_dir_all(&self.folder);
    }
}

impl SameLetter {
    fn new() -> SameLetter {
        static NEXT: AtomicUsize = AtomicUsize::new(0);
        let number = NEXT.fetch_add(1, Ordering::Relaxed);
        let folder = env::temp_dir().join(format!("sameletter-{}-{number}", process::id()));
        fs::create_dir(&folder).expect("a new folder for temporary files");
        fs::create_dir(folder.join("folder")).expect("a folder in it");
        SameLetter { path: path::absolute(Program::new(NAME).path).expect("a path"), folder }
    }

    /// What it writes to standard output and to standard error, with the usual stack of 8 MiB. Its exit status is 0.
    fn run(&self, arguments: &[&[u8]]) -> Result<(Vec<u8>, Vec<u8>), String> {
        let failed = |problem: String| format!("cannot run {}: {problem}", self.path.display());
        let mut shell = Command::new("sh");
        shell.args(["-c", "ulimit -s 8192 && exec \"$0\" \"$@\""]).arg(&self.path);
        shell.args(arguments.iter().map(|argument| OsStr::from_bytes(argument))).current_dir(&self.folder);
        let output = shell.output().map_err(|error| failed(error.to_string()))?;
        match output.status.success() {
            true => Ok((output.stdout, output.stderr)),
            false => Err(failed(format!("it ended with {}", output.status))),
        }
    }

    fn put(&self, name: &str, bytes: &[u8]) -> Result<(), String> {
        let path: &Path = &self.folder.join(name);
        fs::write(path, bytes).map_err(|error| format!("cannot write {}: {error}", path.display()))
    }

    /// That it prints what is compared, and complains of nothing.
    fn prints(&self, format: &Format, pair: &Pair, found: Comparison, statuses: &mut Statuses) -> Result<(), String> {
        self.put("first", &pair.first)?;
        self.put("second", &pair.second)?;
        statuses.count(NAME, number(found));
        self.tells(&[format.name.as_bytes(), b"first", b"second"], print(&found).as_bytes(), b"")
    }

    fn examples(&self, format: &Format, statuses: &mut Statuses) -> Result<usize, String> {
        let all = examples(format.name);
        for Example { first, second, expected } in &all {
            let pair = Pair { first: first.clone(), second: second.clone() };
            self.prints(format, &pair, *expected, statuses)?;
        }
        Ok(all.len())
    }

    /// That it prints what the second program does.
    fn as_second(
        &self,
        format: &Format,
        pairs: &mut dyn Iterator<Item = Pair>,
        statuses: &mut Statuses,
    ) -> Result<usize, String> {
        try_all(pairs, |pair: &Pair| {
            let found = compare(format.steps, &pair.first, &pair.second);
            self.prints(format, pair, found, statuses)
        })
    }

    fn tells(&self, arguments: &[&[u8]], output: &[u8], errors: &[u8]) -> Result<(), String> {
        let (out, err) = self.run(arguments)?;
        for (stream, told, expected) in [("output", out, output), ("error", err, errors)] {
            if told != expected {
                let (told, expected) = (told.escape_ascii(), expected.escape_ascii());
                return Err(format!("standard {stream} has {told}, and not {expected}"));
            }
        }
        Ok(())
    }

    fn starts(&self) -> Result<usize, String> {
        self.put("letter", b"abc")?;
        let no_such = |name: &str| format!("same_letter: {name}: No such file or directory\n");
        let long = [b'a'; 4097];
        let cases: Vec<(Vec<&[u8]>, String)> = vec![
            (vec![], USE.to_string()),
            (vec![b"utf7"], USE.to_string()),
            (vec![b"utf7", b"letter"], USE.to_string()),
            (vec![b"utf7", b"letter", b"letter", b"letter"], USE.to_string()),
            (vec![b"utf7b", b"letter", b"letter"], KINDS.to_string()),
            (vec![b"", b"letter", b"letter"], KINDS.to_string()),
            (vec![b"UTF7", b"letter", b"letter"], KINDS.to_string()),
            (vec![b"mailboxes", b"letter", b"letter"], KINDS.to_string()),
            (vec![&long, b"letter", b"letter"], KINDS.to_string()),
            (vec![b"utf7", b"none", b"letter"], no_such("none")),
            (vec![b"utf7", b"letter", b"none"], no_such("none")),
            (vec![b"jp2", b"none", b"gone"], no_such("none") + &no_such("gone")),
            (vec![b"utf7", b"", b"letter"], no_such("")),
            (vec![b"mailbox", b"letter", b"folder"], "same_letter: folder: Is a directory\n".to_string()),
            (vec![b"utf7", b"folder", b"none"], "same_letter: folder: Is a directory\n".to_string() + &no_such("none")),
            (vec![b"utf7", &long, b"letter"], "same_letter: FILE: File name too long\n".to_string()),
        ];
        for (arguments, errors) in &cases {
            self.tells(arguments, b"", errors.as_bytes())?;
        }
        // A name that is no UTF-8 text is of no file, also where there is one.
        let odd: &[u8] = b"a \xFF letter";
        fs::write(self.folder.join(OsStr::from_bytes(odd)), b"abc")
            .map_err(|error| format!("no such file: {error}"))?;
        let no_text = [b"same_letter: ", odd, b": Invalid or incomplete multibyte or wide character\n"].concat();
        self.tells(&[b"utf7", odd, b"letter"], b"", &no_text)?;
        self.tells(&[b"jp2", b"letter", odd], b"", &no_text)?;
        self.tells(&[b"utf7", b"letter", b"/dev/null"], b"status=0\nindex=0\nfirst=0\nsecond=0\n", b"")?;
        self.tells(&[b"utf7", b"/dev/null", b"/dev/null"], b"status=0\ncount=0\n", b"")?;
        Ok(cases.len() + 4)
    }
}
