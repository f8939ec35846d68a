//! Looks at the must-fail edits: crates/CRATE/must-fail/LABEL.edit.
//!
//! An edit may hold several slips, so that one check tries them all: a line `# NAME (FACT): why` before each names it
//! and says where it is refused, in the proof of a function or by a law. Its names are `CRATE/NAME` of its slips, or
//! `CRATE/LABEL` where it has none.
//!
//! It fails where docs/PROMISES.md names an edit or a slip that does not exist, or does not name one that does; and,
//! where `try_edits` has left its logs in target/must-fail, where a slip is not refused at its fact, or an edit at none.
//! A fact is the name of a function, of a law, or of a goal, `-` and `_` alike. Run it from the root of the repository.
//! The last line is `N edits, M slips, K faults`.

use std::collections::BTreeSet;
use std::fs;
use std::path::Path;
use std::process::ExitCode;

const DOCUMENT: &str = "docs/PROMISES.md";
const LOGS: &str = "target/must-fail";

type Names = BTreeSet<String>;

/// A slip: its name, and the function or law that refuses it.
struct Slip {
    name: String,
    fact: String,
}

struct Edit {
    of: String,
    label: String,
    slips: Vec<Slip>,
}

impl Edit {
    fn parse(of: &str, label: &str, text: &str) -> Edit {
        Edit { of: of.to_string(), label: label.to_string(), slips: text.lines().filter_map(slip).collect() }
    }

    /// The names that the document has for it.
    fn names(&self) -> Names {
        let full = |name: &str| format!("{}/{name}", self.of);
        match self.slips.is_empty() {
            true => Names::from([full(&self.label)]),
            false => self.slips.iter().map(|slip| full(&slip.name)).collect(),
        }
    }

    /// What is wrong with the facts at which it was refused.
    fn faults(&self, refused: &Names) -> Vec<String> {
        let of = format!("{}/{}", self.of, self.label);
        if self.slips.is_empty() && refused.is_empty() {
            return vec![format!("{of} is refused at no fact")];
        }
        let missed = self.slips.iter().filter(|slip| !refused.contains(&spelled(&slip.fact)));
        missed.map(|slip| format!("{of}: {} is not refused at {}", slip.name, slip.fact)).collect()
    }
}

/// A name as a fact is compared: the prover's own names have `_` where ours have `-`.
fn spelled(name: &str) -> String {
    name.replace('_', "-")
}

/// The slip that a line `# NAME (FACT): why` names.
fn slip(line: &str) -> Option<Slip> {
    let (name, rest) = line.strip_prefix("# ")?.split_once(" (")?;
    let (fact, _) = rest.split_once("): ")?;
    let is_name = |word: &str| word.chars().all(|letter| letter.is_ascii_alphanumeric() || "_-".contains(letter));
    (is_name(name) && is_name(fact)).then(|| Slip { name: name.to_string(), fact: fact.to_string() })
}

/// The names of the entries of a folder; none where there is no such folder.
fn entries(folder: &Path) -> Names {
    let listed = fs::read_dir(folder).into_iter().flatten().flatten();
    listed.filter_map(|entry| entry.file_name().into_string().ok()).collect()
}

/// The edits of a crate.
fn edits(of: &str) -> Vec<Edit> {
    let folder = Path::new("crates").join(of).join("must-fail");
    let read = |file: &String| {
        let label = file.strip_suffix(".edit")?;
        Some(Edit::parse(of, label, &fs::read_to_string(folder.join(file)).ok()?))
    };
    entries(&folder).iter().filter_map(read).collect()
}

/// The words of a text of the form `CRATE/NAME`, where CRATE is one of these. A path goes on behind its second word, or
/// its file's name does, and is none.
fn named(text: &str, crates: &Names) -> Names {
    let is_part = |letter: char| letter.is_ascii_alphanumeric() || "_/.".contains(letter);
    let words = text.split(|letter: char| !is_part(letter)).map(|word| word.trim_end_matches('.'));
    let is_edit = |word: &&str| match word.split_once('/') {
        Some((of, name)) => crates.contains(of) && !name.is_empty() && !name.contains(['/', '.']),
        None => false,
    };
    words.filter(is_edit).map(str::to_string).collect()
}

/// What is wrong with the names of the document.
fn misnamed(named: &Names, there: &Names) -> Vec<String> {
    let missing = named.difference(there).map(|name| format!("{DOCUMENT} names {name}, and there is no such edit"));
    let unnamed = there.difference(named).map(|name| format!("{DOCUMENT} does not name the edit {name}"));
    missing.chain(unnamed).collect()
}

/// The functions and laws in whose proofs a log has an error of its own: not one that only says that another proof failed,
/// or that the proof no longer fits the code. `line` gives a line of a source file.
fn refused_at(log: &str, line: &dyn Fn(&str, usize) -> Option<String>) -> Names {
    let empty = ["was not admitted", "that can be named from here", "has no field", "is not in scope"];
    let mut found = Names::new();
    for told in log.lines() {
        if let Some((place, fact)) = told.split_once(": error: `") {
            if empty.iter().any(|words| told.contains(words)) {
                continue;
            }
            found.extend(fact.split('`').next().map(str::to_string));
            found.extend(folder_of(place));
        } else if let Some((place, _)) = told.split_once(": it is not proved that") {
            found.extend(function_at(place.trim_start_matches("note: "), line));
            found.extend(goal_of(told));
        }
    }
    found.iter().map(|fact| spelled(fact)).collect()
}

/// The goal that a note names: its last word in backquotes, in brackets.
fn goal_of(note: &str) -> Option<String> {
    let (_, goal) = note.rsplit_once("(`")?;
    goal.split('`').next().map(str::to_string)
}

/// The function whose proof stands at a place `../NAME/Proof.antt:LINE:COLUMN`.
fn folder_of(place: &str) -> Option<String> {
    let proofs = ["/Proof.antt:", "/Answers.antt:", "/Invariants.antt:"];
    let (folder, _) = proofs.iter().find_map(|file| place.split_once(file))?;
    folder.rsplit('/').next().map(str::to_string)
}

/// The function in which a place `PATH:LINE:COLUMN` stands: the last one declared up to there, or behind its attributes.
fn function_at(place: &str, line: &dyn Fn(&str, usize) -> Option<String>) -> Option<String> {
    let mut parts = place.rsplitn(3, ':').skip(1);
    let mut at: usize = parts.next()?.parse().ok()?;
    let path = parts.next()?;
    while line(path, at)?.trim_start().starts_with("#[") {
        at += 1;
    }
    (1..=at).rev().find_map(|number| declared(&line(path, number)?))
}

/// The function that a line declares.
fn declared(line: &str) -> Option<String> {
    let (_, after) = line.split_once("fn ")?;
    after.split(['(', '<']).next().map(str::to_string)
}

/// A line of a file of a crate. An edit changes whole lines for whole lines, so it is the same one in the text that was tried.
fn line_of(of: &str, path: &str, at: usize) -> Option<String> {
    let file = Path::new("crates").join(of).join(path);
    fs::read_to_string(file).ok()?.lines().nth(at - 1).map(str::to_string)
}

/// What is wrong with the facts at which the edits were refused; nothing where no edit was tried.
fn misrefused(edits: &[Edit]) -> Vec<String> {
    if !Path::new(LOGS).exists() {
        println!("no logs in {LOGS}: where the edits are refused was not looked at");
        return Vec::new();
    }
    let of = |edit: &Edit| {
        let path = Path::new(LOGS).join(&edit.of).join(&edit.label).join(".log");
        match fs::read_to_string(&path) {
            Ok(log) => edit.faults(&refused_at(&log, &|file, at| line_of(&edit.of, file, at))),
            Err(error) => vec![format!("{}: {error}", path.display())],
        }
    };
    edits.iter().flat_map(of).collect()
}

fn main() -> ExitCode {
    let document = match fs::read_to_string(DOCUMENT) {
        Ok(document) => document,
        Err(error) => {
            eprintln!("edits: {DOCUMENT}: {error}");
            return ExitCode::FAILURE;
        }
    };
    let crates = entries(Path::new("crates"));
    let edits: Vec<Edit> = crates.iter().flat_map(|of| edits(of)).collect();
    let names = edits.iter().flat_map(Edit::names).collect();
    let mut faults = misnamed(&named(&document, &crates), &names);
    faults.extend(misrefused(&edits));
    faults.iter().for_each(|fault| println!("{fault}"));
    println!("{} edits, {} slips, {} faults", edits.len(), names.len(), faults.len());
    match faults.is_empty() && !edits.is_empty() {
        true => ExitCode::SUCCESS,
        false => ExitCode::FAILURE,
    }
}

#[cfg(test)]
mod tests {
    use super::*;

    fn names(words: &[&str]) -> Names {
        words.iter().map(|word| word.to_string()).collect()
    }

    #[test]
    fn an_edit_is_named_by_its_slips() {
        let alone = Edit::parse("a", "one", "# why (if at all): no slip\nfile: src/lib.rt\nold: x\nnew: y\n");
        assert_eq!(alone.names(), names(&["a/one"]));
        let two = Edit::parse("a", "both", "# first (f): why\nold: x\nnew: y\n# second (a-law): why\nold: z\nnew: t\n");
        assert_eq!(two.names(), names(&["a/first", "a/second"]));
    }

    #[test]
    fn each_slip_is_refused_at_its_fact() {
        let edit = Edit::parse("a", "both", "# first (f): why\n# second (g): why\n");
        assert!(edit.faults(&names(&["f", "g", "returns"])).is_empty());
        assert_eq!(edit.faults(&names(&["f"])), ["a/both: second is not refused at g"]);
        let alone = Edit::parse("a", "one", "# why\n");
        assert!(alone.faults(&names(&["returns"])).is_empty());
        assert_eq!(alone.faults(&names(&[])), ["a/one is refused at no fact"]);
    }

    #[test]
    fn a_log_says_where() {
        let log = "fn a::f: proved\n\
            /t/proofs/inner/f/Proof.antt:8:13: error: `returns`: they differ\n\
            /t/proofs/g/Proof.antt:9:1: error: `g-spec`: `close` was not admitted (..)\n\
            /t/proofs/h/Proof.antt:9:1: error: `x`: has no `Need-x` that can be named from here\n\
            /t/proofs/Cases.antt:9:1: error: `hold`: they differ\n\
            note: /t/src/lib.rt:2:1: it is not proved that what the function ensures holds\n\
            /t/proofs/e/Answers.antt:9:1: error: `returns_2`: they differ\n\
            /t/proofs/d/Proof.antt:9:1: error: `again`: record `..` has no field `if-x-gt7` (nearest: .if-x-gt8)\n\
            /t/proofs/d/Proof.antt:12:5: error: 1 declaration that depends on `again`, which was rejected, was not checked: d_spec\n\
            note: /t/src/lib.rt:7:9: it is not proved that what the function ensures holds when it returns (`returns-then-x`); the facts ..\n";
        let source = |path: &str, at: usize| {
            (path == "/t/src/lib.rt")
                .then(|| ["", "#[tactic(auto)]", "pub fn k<'a>(x: &'a u8)", "fn m()", "", "", "}"].get(at - 1).copied())
        };
        let line = |path: &str, at: usize| source(path, at).flatten().map(str::to_string);
        assert_eq!(
            refused_at(log, &line),
            names(&["returns", "f", "hold", "k", "returns-2", "e", "m", "returns-then-x"])
        );
    }

    #[test]
    fn names_stand_anywhere_in_a_text() {
        let crates = names(&["utf7", "jp2"]);
        let text = "| `own` | utf7/own_sign, jp2/no_return (law a-b); utf7/last.\nsee (jp2/row) |";
        assert_eq!(named(text, &crates), names(&["utf7/own_sign", "jp2/no_return", "utf7/last", "jp2/row"]));
    }

    #[test]
    fn paths_and_other_folders_are_no_names() {
        let crates = names(&["utf7", "jp2"]);
        let text = "crates/utf7/specs/Rule.antt, docs/PROMISES.md, utf7/Rule.antt, utf7/, and/or, utf7 / jp2";
        assert_eq!(named(text, &crates), names(&[]));
    }

    #[test]
    fn both_directions_are_faults() {
        let found = misnamed(&names(&["a/gone", "a/there"]), &names(&["a/new", "a/there"]));
        assert_eq!(found.len(), 2);
        assert!(found[0].contains("a/gone") && found[1].contains("a/new"));
    }
}
