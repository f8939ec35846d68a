//! What no script can cause: other umasks, limits that a shell sets, letters that are no ordinary files.

use std::time::Duration;

use super::built::Desk;
use super::folder::Folder;
use super::harm::ENDED;
use super::same::{same_bytes, same_files};
use crate::examples::desk::{files, words, Transcript, OLD_MODE};
use crate::examples::nights::OPENED;
use crate::examples::page_file::WORKED;
use crate::report::Report;
use crate::trial::try_examples;

pub fn run(report: &mut Report, desk: &Desk) {
    report.check("desk-modes", "umasks, each with the mode of a saved file", |_| {
        let umasks = [0o000, 0o077, 0o222];
        for umask in umasks {
            desk.compare_transcript(&few_saves(), umask, &format!("umask {umask:o}"))
                .map_err(|difference| format!("with umask {umask:o}, {difference}"))?;
        }
        Ok(umasks.len())
    });
    let mut check = |name: &str, what: &str, transcripts: &[Transcript], first: &str| {
        report.check(&format!("desk-{name}"), what, |_| {
            try_examples(transcripts, |transcript| desk.compare_transcript(transcript, desk.umask, first))
        });
    };
    let what = "more saves than files can be open at a time";
    check("open-files", what, &[many("save", "abc"), many("keep", OPENED)], "ulimit -n 16");
    // A write beyond the limit then fails, and is no reason to be ended by a signal.
    let limit = "trap '' XFSZ && ulimit -f 1";
    check("full", "saves of which only the first bytes can be written", &[too_large()], limit);
    check("devices", "letters that are no ordinary files", &devices(), "");
    report.check("desk-pieces", "a letter and a page file that arrive in pieces", |_| in_pieces(desk));
}

/// Files "letter" with this letter and "old".
fn transcript(name: &str, letter: &str, input: &str, output: &str) -> Transcript {
    Transcript {
        name: name.to_string(),
        arguments: words(&["utf7b", "letter"]),
        before: files(&[("letter", letter), ("old", "an older file")], OLD_MODE),
        input: input.as_bytes().to_vec(),
        output: output.as_bytes().to_vec(),
        errors: vec![],
        saved: vec![],
    }
}

fn few_saves() -> Transcript {
    let told = "status=0\ncount=3\n".repeat(3) + &"status=0\ncount=133\n".repeat(2);
    let saved = vec![("old", OPENED), ("new", "abc"), ("kept", OPENED)];
    Transcript { saved, ..transcript("saves and keeps", "abc", "save old\nsave new\nkeep kept\nkeep old\n", &told) }
}

/// A save or a keep, again and again.
fn many(word: &str, put: &'static str) -> Transcript {
    let told = format!("status=0\ncount=3\n{}", format!("status=0\ncount={}\n", put.len()).repeat(20));
    let input = format!("{word} old\n").repeat(20);
    Transcript { saved: vec![("old", put)], ..transcript(&format!("many times {word}"), "abc", &input, &told) }
}

/// What is saved is too large, at first; so is what is kept.
fn too_large() -> Transcript {
    let input = "save old\nsave new\nkeep old\nkeep new\nreplace 0 2990\nkeep new\nsave old\n";
    let output = "status=0\ncount=3000\nstatus=0\ncount=10\nstatus=0\ncount=10\n";
    let errors = ["old", "new", "old", "new", "new"].map(|name| format!("desk: {name}: File too large\n"));
    Transcript {
        errors: errors.concat().into_bytes(),
        saved: vec![("old", "aaaaaaaaaa")],
        ..transcript("a letter that is too large", &"a".repeat(3_000), input, output)
    }
}

fn devices() -> [Transcript; 4] {
    let nothing = "status=0\ncount=0\nstatus=0\ncount=0\ncells=\nstatus=0\ncount=0\n";
    [
        Transcript {
            arguments: words(&["utf7h", "/dev/null"]),
            saved: vec![("new", "")],
            ..transcript("a letter of nothing", "abc", "show\nsave new\n", nothing)
        },
        Transcript {
            arguments: words(&["jp2", "/dev/zero"]),
            ..transcript("a letter without end", "abc", "show\n", "status=16\nplace=1048576\n")
        },
        Transcript {
            arguments: words(&["page", "/dev/null"]),
            ..transcript("a page file of nothing", "abc", "show\nkeep new\n", "status=18\nplace=0\n")
        },
        Transcript {
            arguments: words(&["page", "/dev/zero"]),
            errors: b"desk: /dev/zero: is longer than 1572864 bytes, and there is no room for it\n".to_vec(),
            ..transcript("a page file without end", "abc", "show\n", "")
        },
    ]
}

/// The letter is the standard input, of which then nothing is left; so is the page file.
fn in_pieces(desk: &Desk) -> Result<usize, String> {
    let (first, rest) = WORKED.split_at(90);
    for (word, pieces, told, said) in [
        ("utf7b", ["A+Im", "IDk", "Q."], "status=0\ncount=4\n", ""),
        ("page", [first, &rest[..1], &rest[1..]], "status=0\ncount=9\n", ENDED),
    ] {
        let before = files(&[], OLD_MODE);
        let folder = Folder::new(&before)?;
        let mut session = desk.start(&words(&[word, "/dev/stdin"]), &folder, "")?;
        for piece in pieces {
            session.feed(piece.as_bytes());
            session.expect_silence(Duration::from_millis(50))?;
        }
        session.close();
        let (output, errors) = session.end()?;
        same_bytes("standard output", told.as_bytes(), output)?;
        same_bytes("standard error", said.as_bytes(), errors)?;
        same_files(&before, &folder.files()?)?;
    }
    Ok(2)
}
