//! Compares include/qalithonda.h with the source of the library: the functions, structs and constants that it declares,
//! and the layout that a C compiler gives the structs.
//!
//! Run it from the root of the repository; it needs `cc` and no archive. The last line is `N passed, M failed`.

#[path = "../header/mod.rs"]
mod header;

use std::fs;
use std::path::{Path, PathBuf};
use std::process::ExitCode;

use header::item::{self, Item};
use header::{c, layout, rattle};

const HEADER: &str = "include/qalithonda.h";
const SOURCES: [&str; 9] = [
    "crates/qalithonda/src",
    "crates/qalithonda_compare/src",
    "crates/qalithonda_benches/src",
    "crates/qalithonda_subject/src",
    "crates/host_numbers/src",
    "crates/host_steps/src",
    "crates/host_compare/src",
    "crates/host_pages/src",
    "crates/host_benches/src",
];
const ANSWER: &str = "crates/answer/src/lib.rt";
/// Where the kinds have their numbers, and the block that gives them.
const KINDS: (&str, &str) = ("crates/codec/src/lib.rt", "impl From<Kind> for u32");

/// A check: its name, and what it found, good or bad.
type Check = (String, Result<String, String>);

fn text_of(path: &Path) -> Result<String, String> {
    fs::read_to_string(path).map_err(|error| format!("cannot read {}: {error}", path.display()))
}

fn declared() -> Result<Vec<Item>, String> {
    c::items(&text_of(Path::new(HEADER))?).map_err(|problem| format!("{HEADER}: {problem}"))
}

/// The Rattle files of a crate.
fn sources(folder: &str) -> Result<Vec<PathBuf>, String> {
    let entries = fs::read_dir(folder).map_err(|error| format!("cannot list {folder}: {error}"))?;
    let files = entries.flatten().map(|entry| entry.path());
    Ok(files.filter(|path| path.extension().is_some_and(|end| end == "rt")).collect())
}

/// The numbers of the kinds: of codec's file that one block alone, since other rows there begin with a kind too.
fn kinds() -> Result<Vec<Item>, String> {
    let (path, block) = KINDS;
    let text = text_of(Path::new(path))?;
    let (_, behind) = text.split_once(block).ok_or_else(|| format!("{path}: no `{block}`"))?;
    rattle::items(behind.split("\n}\n").next().unwrap_or(behind)).map_err(|problem| format!("{path}: {problem}"))
}

/// The items of the library's source, of all its files.
fn exported() -> Result<Vec<Item>, String> {
    let mut files = vec![PathBuf::from(ANSWER)];
    for folder in SOURCES {
        files.extend(sources(folder)?);
    }
    files.sort();
    let mut found = Vec::new();
    for path in files {
        let items = rattle::items(&text_of(&path)?).map_err(|problem| format!("{}: {problem}", path.display()))?;
        found.extend(items);
    }
    found.extend(kinds()?);
    Ok(found)
}

fn checks() -> Result<Vec<Check>, String> {
    let declared = declared()?;
    let mut checks = item::compare(&declared, &exported()?);
    checks.extend(layout::compare(&declared, &layout::in_rust(), layout::in_c(&declared, Path::new("include"))));
    Ok(checks)
}

fn main() -> ExitCode {
    let checks = checks().unwrap_or_else(|problem| vec![("sources".to_string(), Err(problem))]);
    for (name, result) in &checks {
        match result {
            Ok(found) => println!("ok {name}: {found}"),
            Err(problem) => println!("FAILED {name}: {problem}"),
        }
    }
    let failed = checks.iter().filter(|(_, result)| result.is_err()).count();
    println!("{} passed, {failed} failed", checks.len() - failed);
    if failed > 0 {
        ExitCode::FAILURE
    } else {
        ExitCode::SUCCESS
    }
}
