//! Tries the must-fail edits, crates/CRATE/must-fail/LABEL.edit, and keeps all that is said of each in
//! target/must-fail/CRATE/LABEL/.log, where `edits` reads at which facts its slips are refused: `rt ci` and `rt
//! must-fail` tell the first error only.
//!
//! A goal is named after the tests before it, as `Need-returns-then-u-gt91`, so a proof written out falls for its names
//! alone where a slip changes such a test, and that shows nothing. A line `# names in FILE: OLD -> NEW, ..` of an edit
//! says what they become: those names are turned in that file here, and only here, since the prover's own try of an
//! edit takes a proof that fails in an edited file for a bad edit.
//!
//! Each edit is written into a copy of the crates, a copy for each processor, where `rt check` begins with what a check
//! kept of the crate as it stands, here or in another checkout of this machine; where none did, it begins from nothing.
//! Run it from the root of the repository, with the names of crates, or none for all. The last line is `N edits tried`.

use std::cmp::Reverse;
use std::collections::BTreeMap;
use std::fs;
use std::io;
use std::path::{Path, PathBuf};
use std::process::{Command, ExitCode};
use std::sync::Mutex;
use std::thread;
use std::time::Instant;

const LOGS: &str = "target/must-fail";

type Texts = BTreeMap<PathBuf, String>;

/// The texts that an edit makes of the files of its crate.
fn edited(edit: &str, folder: &Path) -> Result<Texts, String> {
    let (mut texts, mut file, mut old) = (Texts::new(), PathBuf::new(), "");
    for line in edit.lines() {
        if let Some(path) = line.strip_prefix("file: ") {
            file = folder.join(path.trim());
            if !texts.contains_key(&file) {
                let text = fs::read_to_string(&file).map_err(|error| format!("{}: {error}", file.display()))?;
                texts.insert(file.clone(), text);
            }
        } else if let Some(text) = line.strip_prefix("old: ") {
            old = text;
        } else if let Some(new) = line.strip_prefix("new:") {
            let text = texts.get_mut(&file).ok_or("a pair before any file")?;
            if text.matches(old).count() != 1 {
                return Err(format!("`{old}` does not stand once in {}", file.display()));
            }
            *text = text.replacen(old, new.strip_prefix(' ').unwrap_or(new), 1);
        } else if let Some((path, names)) = line.strip_prefix("# names in ").and_then(|rest| rest.split_once(": ")) {
            let file = folder.join(path);
            let text = match texts.get(&file) {
                Some(text) => text.clone(),
                None => fs::read_to_string(&file).map_err(|error| format!("{}: {error}", file.display()))?,
            };
            let names = names.split(", ").filter_map(|pair| pair.split_once(" -> ")).collect();
            texts.insert(file, renamed(&text, &names));
        }
    }
    Ok(texts)
}

/// The text with each of these names turned, all at once.
fn renamed(text: &str, names: &BTreeMap<&str, &str>) -> String {
    let is_part = |letter: char| letter.is_alphanumeric() || "_'+-".contains(letter);
    let (mut left, mut made) = (text, String::new());
    while let Some(first) = left.chars().next() {
        let end = left.find(|letter| is_part(letter) != is_part(first)).unwrap_or(left.len());
        let (word, rest) = left.split_at(end);
        made.push_str(names.get(word).unwrap_or(&word));
        left = rest;
    }
    made
}

/// What `rt check` says of a crate with these texts in place of its own.
fn told(folder: &Path, texts: &Texts) -> io::Result<String> {
    let before: Texts =
        texts.keys().map(|file| Ok((file.clone(), fs::read_to_string(file)?))).collect::<io::Result<_>>()?;
    let write = |texts: &Texts| texts.iter().try_for_each(|(file, text)| fs::write(file, text));
    write(texts)?;
    // Each processor has a check of its own.
    let said = Command::new("rt").args(["check", "--jobs", "1"]).current_dir(folder).output();
    write(&before)?;
    let said = said?;
    Ok(String::from_utf8_lossy(&said.stdout).into_owned() + &String::from_utf8_lossy(&said.stderr))
}

/// The edits of a crate, in order.
fn edits(of: &str) -> Vec<PathBuf> {
    let listed = fs::read_dir(Path::new("crates").join(of).join("must-fail")).into_iter().flatten().flatten();
    let mut found: Vec<PathBuf> = listed.map(|entry| entry.path()).collect();
    found.retain(|path| path.extension().is_some_and(|ending| ending == "edit"));
    found.sort();
    found
}

fn try_crate(tree: &Path, of: &str) -> Result<usize, String> {
    let folder = tree.join("crates").join(of);
    let found = edits(of);
    for edit in &found {
        let label = edit.file_stem().unwrap_or_default().to_string_lossy();
        let began = Instant::now();
        let text = fs::read_to_string(edit).map_err(|error| error.to_string())?;
        let texts = edited(&text, &folder).map_err(|why| format!("{}: {why}", edit.display()))?;
        let log = told(&folder, &texts).map_err(|error| error.to_string())?;
        let at = Path::new(LOGS).join(of).join(&*label);
        fs::create_dir_all(&at).and_then(|()| fs::write(at.join(".log"), &log)).map_err(|error| error.to_string())?;
        let errors = log.lines().filter(|line| line.contains(": error: ")).count();
        println!("{of}/{label}: {} s, {errors} errors", began.elapsed().as_secs());
    }
    // What was kept of the edited texts serves no other crate, and takes a hundred megabytes and more.
    let _ = fs::remove_dir_all(folder.join("out/incremental"));
    Ok(found.len())
}

/// A copy of the crates, without what was made of them and without the edits.
fn copy(tree: &Path) -> io::Result<()> {
    fs::create_dir_all(tree)?;
    let parts = "cp crates.txt \"$0\" && if [ -f HANDLES ]; then cp HANDLES \"$0\"; fi && \
        tar -cf - --no-wildcards-match-slash --exclude='crates/*/out' --exclude='crates/*/must-fail' crates | \
        tar -xf - -C \"$0\"";
    match Command::new("sh").args(["-c", parts]).arg(tree).status()?.success() {
        true => Ok(()),
        false => Err(io::Error::other("the crates cannot be copied")),
    }
}

/// The crates of crates.txt.
fn listed() -> Vec<String> {
    let text = fs::read_to_string("crates.txt").unwrap_or_default();
    let names = text.lines().filter(|line| !line.starts_with('#')).filter_map(|line| line.split([':', ' ']).next());
    names.filter(|name| !name.is_empty()).map(str::to_string).collect()
}

/// How much is likely to be done for a crate: its bytes, once for each edit.
fn work(of: &str) -> u64 {
    fn bytes(folder: &Path) -> u64 {
        let listed = fs::read_dir(folder).into_iter().flatten().flatten();
        let size =
            |path: PathBuf| if path.is_dir() { bytes(&path) } else { path.metadata().map_or(0, |data| data.len()) };
        listed.map(|entry| size(entry.path())).sum()
    }
    let parts = ["src", "specs", "proofs"].map(|part| bytes(&Path::new("crates").join(of).join(part)));
    parts.iter().sum::<u64>() * edits(of).len() as u64
}

fn main() -> ExitCode {
    let given: Vec<String> = std::env::args().skip(1).collect();
    let mut crates = if given.is_empty() { listed() } else { given };
    crates.retain(|of| !edits(of).is_empty());
    // The longest come first, so that no processor is left with one at the end.
    crates.sort_by_cached_key(|of| Reverse(work(of)));
    let lanes = thread::available_parallelism().map_or(1, |count| count.get()).min(crates.len());
    let room = std::env::temp_dir().join(format!("try-edits-{}", std::process::id()));
    let (left, done) = (Mutex::new(crates.iter()), Mutex::new((0, Vec::new())));
    thread::scope(|scope| {
        for lane in 0..lanes {
            let (tree, left, done) = (room.join(lane.to_string()), &left, &done);
            scope.spawn(move || {
                let copied = copy(&tree).map_err(|error| error.to_string());
                loop {
                    let Some(of) = left.lock().unwrap().next() else { break };
                    let tried = copied.clone().and_then(|()| try_crate(&tree, of));
                    let mut done = done.lock().unwrap();
                    match tried {
                        Ok(count) => done.0 += count,
                        Err(why) => done.1.push(why),
                    }
                }
            });
        }
    });
    let _ = fs::remove_dir_all(&room);
    let (count, faults) = done.into_inner().unwrap();
    faults.iter().for_each(|fault| println!("{fault}"));
    println!("{count} edits tried");
    match faults.is_empty() && count > 0 {
        true => ExitCode::SUCCESS,
        false => ExitCode::FAILURE,
    }
}

#[cfg(test)]
mod tests {
    use super::*;

    #[test]
    fn names_are_turned_at_once() {
        let names = BTreeMap::from([("in-A", "in-B"), ("in-B", "in-A"), ("if-u-gt9", "if-u-gt8")]);
        let made = renamed("f : Need-in-A\nf c = g c.in-A.is c.in-B.is (c.if-u-gt9.true) ≡ c.if-u-gt91", &names);
        assert_eq!(made, "f : Need-in-A\nf c = g c.in-B.is c.in-A.is (c.if-u-gt8.true) ≡ c.if-u-gt91");
    }
}
