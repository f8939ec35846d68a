//! Pages that are kept, and gone on with by a desk that is started anew.

use super::built::Desk;
use super::folder::Folder;
use super::same::same_bytes;
use super::script::{Nights, Script};
use super::seeded;
use crate::calls::files as page_files;
use crate::examples::desk::{words, OLD_MODE};
use crate::rng::Rng;
use crate::second::desk as second;
use crate::second::files::{Entry, Files};
use crate::second::ledger::Ledger;
use crate::second::page::Page;
use crate::second::page_file::{self, Content};
use crate::second::{Call, Kind};

/// So many lists of scripts, each run in the folder that those before it left, with several page files there.
pub fn seeded(seed: u64, kind: Kind, count: usize) -> impl Iterator<Item = Nights> {
    let mut rng = Rng::new(seed, &format!("desk {} nights", kind.name()));
    (0..count).map(move |_| {
        let letter = seeded::letter(&mut rng, kind);
        let mut first = seeded::script(&mut rng, kind, letter);
        add_keeps(&mut rng, &mut first.lines);
        let mut files = left(&first, &Files::default());
        let mut runs = vec![first];
        for _ in 0..rng.between(1, 3) {
            let script = next(&mut rng, kind, &files);
            files = left(&script, &files);
            runs.push(script);
        }
        Nights { runs }
    })
}

/// What a script leaves that is run in a folder with these files.
fn left(script: &Script, files: &Files) -> Files {
    second::run(&script.start_in(files, 0o22)).files
}

/// Keeps the page in the end, most often, and somewhere before.
fn add_keeps(rng: &mut Rng, lines: &mut Vec<Vec<u8>>) {
    let keep = |rng: &mut Rng| {
        let name: &[u8] = rng.pick(&[b"kept", b"kept", b"kept two", b"sub/kept", b"letter", b"old"]);
        seeded::line(rng, &[b"keep".to_vec(), name.to_vec()])
    };
    for _ in 0..rng.below(3) {
        let line = keep(rng);
        // The last line may have no LF.
        lines.insert(rng.below(lines.len().max(1)), line);
    }
    if !rng.one_in(4) && lines.last().is_none_or(|last| last.ends_with(b"\n")) {
        lines.push(keep(rng));
    }
}

/// A script on one of these files: most often on a page that was kept, now and then on one that somebody has damaged,
/// on one made by hand, on any file as a page, or on any as a letter.
fn next(rng: &mut Rng, kind: Kind, files: &Files) -> Script {
    let all: Vec<(Vec<u8>, Vec<u8>)> = files
        .entries
        .iter()
        .filter_map(|(path, entry)| match entry {
            Entry::File { bytes, .. } => Some((path.clone(), bytes.clone())),
            Entry::Folder => None,
        })
        .collect();
    let kept: Vec<(Vec<u8>, Vec<u8>)> =
        all.iter().filter(|(_, bytes)| page_file::content(bytes).is_some()).cloned().collect();
    let one = |rng: &mut Rng, from: &[(Vec<u8>, Vec<u8>)]| from[rng.below(from.len())].clone();
    let (word, put, (path, bytes)) = match rng.below(12) {
        0 => (second::kind_word(kind), false, one(rng, &all)),
        1 => ("page", false, one(rng, &all)),
        2 => ("page", true, (b"made".to_vec(), page_files::one(rng, kind).file)),
        3 if !kept.is_empty() => {
            let (path, mut bytes) = one(rng, &kept);
            page_files::damage(rng, &mut bytes);
            ("page", true, (path, bytes))
        }
        _ if !kept.is_empty() => ("page", false, one(rng, &kept)),
        _ => ("page", false, one(rng, &all)),
    };
    let ledger = if word == "page" { page_file::content(&bytes).and_then(ledger) } else { Ledger::new(kind, &bytes) };
    let mut lines = seeded::lines(rng, kind, ledger);
    add_keeps(rng, &mut lines);
    let mut files = Files::default();
    if put {
        files.entries.insert(path.clone(), Entry::File { bytes, mode: OLD_MODE });
    }
    Script { arguments: vec![word.as_bytes().to_vec(), path], files, lines }
}

/// The ledger that hears the steps that a page file has.
fn ledger(content: Content) -> Option<Ledger> {
    let Content { page, arrived, history, .. } = content;
    let mut ledger = Ledger::new(Kind::of_number(page.kind)?, &arrived)?;
    let (mut at, mut undone) = (0, 0);
    while let Some(&[place, count, added]) = history.get(at..at + 3) {
        let [place, count, added] = [place, count, added].map(|number| number as usize);
        let cells = history.get(at + 3 + count..at + 3 + count + added)?.to_vec();
        at += 3 + count + added;
        undone += usize::from(at > page.done);
        ledger.hear(&Call::Replace { place, count, cells }, true);
    }
    (0..undone).for_each(|_| ledger.hear(&Call::Undo, true));
    Some(ledger)
}

/// Scripts on page files of all sorts: small ones that are sound and not, with bytes of their own and others, damaged
/// or not; and one for each answer that a page file can lead to.
pub fn on_page_files(seed: u64, kind: Kind, count: usize) -> impl Iterator<Item = Script> {
    let lines = ["show", "keep same", "undo", "save out", "keep undone", "redo", "redo", "save out", "squeeze 2"];
    let lines = lines.into_iter().chain(["keep kept", "quit", "undo", "undo", "keep undone", "quit", "quit"]);
    let lines: Vec<Vec<u8>> = lines.map(|line| format!("{line}\n").into_bytes()).collect();
    telling(kind).into_iter().chain(page_files::seeded(seed, kind, count).map(|filed| filed.file)).map(move |file| {
        let mut files = Files::default();
        files.entries.insert(b"kept".to_vec(), Entry::File { bytes: file, mode: OLD_MODE });
        Script { arguments: words(&["page", "kept"]), files, lines: lines.clone() }
    })
}

/// A page on which one step stands and one is undone: as it is; with bytes of as many cells, which are found to be
/// another's when nothing stands; with a cell that cannot be saved; with other bytes, not sound, and not in form.
fn telling(kind: Kind) -> Vec<Vec<u8>> {
    let whole = page_file::content(&page_files::small(kind)[2].file).expect("a page file");
    let others = |count: usize| Content { arrived: vec![b'a'; count], ..whole.clone() };
    let unwritable = [&whole.text[..whole.text.len() - 1], &[u32::MAX]].concat();
    let unsound = Page { done: whole.page.done - 1, ..whole.page };
    let changed = [
        whole.clone(),
        others(whole.page.opening),
        Content { text: unwritable, ..whole.clone() },
        others(whole.page.opening + 1),
        Content { page: unsound, ..whole.clone() },
    ];
    let behind = [&whole.file()[..], b" "].concat();
    changed.iter().map(Content::file).chain([behind]).collect()
}

/// So many scripts that change a page and turn back.
pub fn edits(seed: u64, kind: Kind, count: usize) -> impl Iterator<Item = Script> {
    let mut rng = Rng::new(seed, &format!("desk {} back", kind.name()));
    (0..count).map(move |_| {
        let letter = seeded::letter(&mut rng, kind);
        let lines = seeded::edits(&mut rng, kind, &letter);
        Script { lines, ..seeded::on_letter(kind, "letter", "letter", letter, &[]) }
    })
}

/// That a page which is kept after these lines is saved as it was by a desk that goes on with it, is undone to the
/// letter, byte for byte, and redone to what it was redone to before; also where it is kept again in between. This asks
/// no second program.
pub fn undone_and_redone(desk: &Desk, script: &Script) -> Result<(), String> {
    let folder = Folder::new(&script.files)?;
    // There are no more steps than lines.
    let (undos, redos) = ("undo\n".repeat(script.lines.len() + 1), "redo\n".repeat(script.lines.len() + 1));
    let run = |arguments: &[Vec<u8>], input: &[u8]| -> Result<Vec<u8>, String> {
        let mut session = desk.start(arguments, &folder, "")?;
        session.feed(input);
        session.close();
        session.end().map(|(output, _)| output.to_vec())
    };
    let page = |name: &str, lines: &str| run(&words(&["page", name]), lines.as_bytes());
    let bytes = |name: &str| match folder.files()?.entries.remove(name.as_bytes()) {
        Some(Entry::File { bytes, .. }) => Ok(bytes),
        _ => Err(format!("there is no file {name}")),
    };
    run(
        &script.arguments,
        &[&script.lines.concat(), format!("keep kept\nsave end\n{redos}save top\n").as_bytes()].concat(),
    )?;
    let letter = bytes("letter")?;
    let told = page("kept", &format!("save end too\n{undos}save back\nkeep undone\n{redos}save top too\n"))?;
    let last = format!("status=13\nplace=0\nstatus=0\ncount={}\n", letter.len());
    if !told.windows(last.len()).any(|window| window == last.as_bytes()) {
        return Err("the last undo is not refused before the save".to_string());
    }
    page("undone", &format!("save back too\n{redos}save top again\nkeep redone\n"))?;
    page("redone", &format!("save top at last\n{undos}save back again\n"))?;
    for (name, as_name) in [
        ("end too", "end"),
        ("back", "letter"),
        ("back too", "letter"),
        ("back again", "letter"),
        ("top too", "top"),
        ("top again", "top"),
        ("top at last", "top"),
    ] {
        same_bytes(name, &bytes(as_name)?, &bytes(name)?)?;
    }
    Ok(())
}

#[cfg(test)]
mod tests {
    use std::collections::BTreeSet;

    use super::*;
    use crate::second::desk::Told;

    #[test]
    fn most_later_runs_go_on_with_a_page() {
        let (mut accepted, mut refused, mut letters, mut most) = (0, 0, 0, 0);
        for nights in Kind::ALL.into_iter().flat_map(|kind| seeded(1, kind, 60)) {
            let mut files = Files::default();
            for (number, script) in nights.runs.iter().enumerate() {
                let end = second::run(&script.start_in(&files, 0o22));
                files = end.files;
                match &end.told[0] {
                    _ if number == 0 => {}
                    Told::Answer(second::PAGE, answer) if answer.number == 0 => accepted += 1,
                    Told::Answer(second::PAGE, _) => refused += 1,
                    _ => letters += 1,
                }
            }
            let is_page =
                |entry: &Entry| matches!(entry, Entry::File { bytes, .. } if page_file::content(bytes).is_some());
            most += usize::from(files.entries.values().filter(|entry| is_page(entry)).count() > 1);
        }
        let all = accepted + refused + letters;
        assert!((50..80).contains(&(100 * accepted / all)), "{accepted} of {all}");
        assert!((10..40).contains(&(100 * refused / all)), "{refused} of {all}");
        assert!(letters > 10, "{letters} of {all}");
        assert!(most > 60, "{most} of 180 with several page files");
    }

    #[test]
    fn every_answer_is_led_to() {
        let answered = |kind, name: &str| -> BTreeSet<u32> {
            let told = on_page_files(1, kind, 0).flat_map(|script| second::run(&script.start(0o22)).told);
            told.filter_map(|told| match told {
                Told::Answer(of, answer) if of == name => Some(answer.number),
                _ => None,
            })
            .collect()
        };
        for kind in Kind::ALL {
            assert_eq!(answered(kind, second::PAGE), [0, 14, 15, 18].into());
            assert_eq!(answered(kind, second::SAVE), [0, 10, 15].into());
            assert_eq!(answered(kind, second::KEEP), [0, 15].into());
        }
    }

    #[test]
    fn a_page_file_s_steps_are_heard() {
        for filed in Kind::ALL.into_iter().flat_map(page_files::small) {
            let content = page_file::content(&filed.file).expect("a page file");
            let found = ledger(content.clone()).expect("a ledger").content(&content.arrived);
            assert_eq!(
                (found.text, found.history, found.page.done),
                (content.text, content.history, content.page.done)
            );
        }
    }
}
