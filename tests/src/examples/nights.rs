//! Examples of `desk` over several runs in one folder: pages that are kept, and gone on with. What is told, and every
//! page file, is written out by hand.

use super::desk::{files, words, Nights, Transcript, OLD_MODE};
use super::page_file::{readings, Filed, WORKED};
use crate::second::files::Entry;

/// A line with what is told for it, as a line of complaint on standard error.
type Line<'a> = (&'a str, &'a str);

/// A run with these arguments: what is told at its start, and for each line.
fn run(arguments: &[&str], start: &str, list: &[Line], saved: &[(&'static str, &'static str)]) -> Transcript {
    let told = |on_errors: bool| -> Vec<u8> {
        let all = [start].into_iter().chain(list.iter().map(|&(_, told)| told));
        all.filter(|told| told.starts_with("desk: ") == on_errors).flat_map(str::bytes).collect()
    };
    Transcript {
        name: format!("desk {}", arguments.join(" ")),
        arguments: words(arguments),
        before: files(&[], OLD_MODE),
        input: list.iter().flat_map(|&(line, _)| line.bytes()).collect(),
        output: told(false),
        errors: told(true),
        saved: saved.to_vec(),
    }
}

const THREE: &str = "status=0\ncount=3\n";
const FOUR: &str = "status=0\ncount=4\n";
const NONE_LEFT: &str = "status=13\nplace=0\n";
const UNLIKE: &str = "status=15\nplace=0\n";
const STAYS: Line = ("quit\n", "desk: the page is not saved: save FILE, or quit again to leave it\n");
const LEAVES: Line = ("quit\n", "");
const UNREAD: Line = ("show\nkeep kept\nshows\n", "");
const ENDED: Line = ("", "desk: the input has ended, and the page is not saved\n");
const ABC: &str = "status=0\ncount=3\ncells=00000061 00000062 00000063\n";

pub fn all() -> Vec<Nights> {
    vec![worked(), marks(), squeezed(), over_the_letter(), names(), foreign(), unwritable()]
}

const WORKED_SAVED: &str = "form=1
kind=utf7b
opening=00004
length=00004
used=00005
done=00005
saved=00005
arrived=412B496D49446B512E
text=000000410000003D000003910000002E
history=000000010000000100000001000022620000003D
";

const WORKED_UNDONE: &str = "form=1
kind=utf7b
opening=00004
length=00004
used=00005
done=00000
saved=00005
arrived=412B496D49446B512E
text=0000004100002262000003910000002E
history=000000010000000100000001000022620000003D
";

/// Document 01's worked page: undone to the letter in the second run, kept anew in the third, redone in the fourth.
fn worked() -> Nights {
    let letter = "A+ImIDkQ.";
    let nine = "status=0\ncount=9\n";
    let kept = "status=0\ncount=193\n";
    let changed = "status=0\ncount=4\ncells=00000041 0000003D 00000391 0000002E\n";
    let first = [("replace 1 1 3D\n", FOUR), ("keep kept\n", kept), STAYS, LEAVES, UNREAD];
    let second = [("show\n", changed), ("undo\n", FOUR), ("undo\n", NONE_LEFT), ("save back\n", nine), LEAVES, UNREAD];
    let third = [
        ("redo\n", NONE_LEFT),
        ("save new\n", "status=0\ncount=8\n"),
        (" keep\tkept \r\n", kept),
        ("undo\n", FOUR),
        ("keep un done\n", kept),
        STAYS,
        ("redo\n", FOUR),
        LEAVES,
    ];
    let fourth = [("undo\n", NONE_LEFT), ("save letter\n", nine), ("redo\n", FOUR), ("show\n", changed), STAYS, ENDED];
    Nights {
        name: "the worked page over four runs",
        before: files(&[("letter", letter)], OLD_MODE),
        runs: vec![
            run(&["utf7b", "letter"], FOUR, &first, &[("kept", WORKED)]),
            run(&["page", "kept"], nine, &second, &[("back", letter)]),
            run(
                &["page", "./kept"],
                nine,
                &third,
                &[("new", "A=+A5E-."), ("kept", WORKED_SAVED), ("un done", WORKED_UNDONE)],
            ),
            run(&["page", "un done"], nine, &fourth, &[]),
        ],
    }
}

const SAVED_UNDONE: &str = "form=1
kind=utf7b
opening=00003
length=00003
used=00004
done=00000
saved=00004
arrived=616263
text=000000610000006200000063
history=00000000000000000000000100000041
";

const LOST: &str = "form=1
kind=utf7b
opening=00003
length=00004
used=00004
done=00004
saved=none
arrived=616263
text=00000042000000610000006200000063
history=00000000000000000000000100000042
";

/// What was saved is led back to by a redo in the second run, and lost by a replace in the third.
fn marks() -> Nights {
    let first = [
        ("replace 0 0 41\n", FOUR),
        ("save new\n", FOUR),
        ("undo\n", THREE),
        ("keep kept\n", "status=0\ncount=165\n"),
        ENDED,
    ];
    let second = [STAYS, ("redo\n", FOUR), LEAVES, UNREAD];
    let third = [("replace 0 0 42\n", FOUR), ("keep kept\n", "status=0\ncount=172\n"), STAYS, LEAVES];
    let fourth = [("redo\n", NONE_LEFT), ("undo\n", THREE), STAYS, ("save new\n", THREE), LEAVES];
    let page = ["page", "kept"];
    Nights {
        name: "what was saved last, over four runs",
        before: files(&[("letter", "abc")], OLD_MODE),
        runs: vec![
            run(&["utf7b", "letter"], THREE, &first, &[("new", "Aabc"), ("kept", SAVED_UNDONE)]),
            run(&page, THREE, &second, &[]),
            run(&page, THREE, &third, &[("kept", LOST)]),
            run(&page, THREE, &fourth, &[("new", "abc")]),
        ],
    }
}

const SQUEEZED: &str = "form=1
kind=utf7b
opening=00003
length=00003
used=00014
done=00014
saved=00000
arrived=616263
text=000000410000004200000043
history=0000000000000003000000030000006100000062000000630000004100000042000000630000000200000001000000010000006300000043
";

const SQUEEZED_AGAIN: &str = "form=1
kind=utf7b
opening=00003
length=00003
used=00009
done=00009
saved=00000
arrived=616263
text=000000410000004200000043
history=000000000000000300000003000000610000006200000063000000410000004200000043
";

/// Steps are squeezed and kept, undone as they are then, and squeezed again.
fn squeezed() -> Nights {
    let first = [
        ("replace 0 1 41\n", THREE),
        ("replace 1 1 42\n", THREE),
        ("replace 2 1 43\n", THREE),
        ("squeeze 2\n", "status=0\ncount=14\n"),
        ("keep kept\n", "status=0\ncount=245\n"),
        STAYS,
        LEAVES,
    ];
    let second = [
        ("undo\n", THREE),
        ("undo\n", THREE),
        ("show\n", ABC),
        ("undo\n", NONE_LEFT),
        ("redo\n", THREE),
        ("redo\n", THREE),
        ("redo\n", NONE_LEFT),
        ("squeeze 2\n", "status=0\ncount=9\n"),
        ("keep again\n", "status=0\ncount=205\n"),
        ENDED,
    ];
    let third = [("undo\n", THREE), ("show\n", ABC), ("undo\n", NONE_LEFT), ("save back\n", THREE), LEAVES];
    Nights {
        name: "squeezes over three runs",
        before: files(&[("letter", "abc")], OLD_MODE),
        runs: vec![
            run(&["utf7b", "letter"], THREE, &first, &[("kept", SQUEEZED)]),
            run(&["page", "kept"], THREE, &second, &[("again", SQUEEZED_AGAIN)]),
            run(&["page", "again"], THREE, &third, &[("back", "abc")]),
        ],
    }
}

/// The page of a letter "abc" that was only opened.
pub const OPENED: &str = "form=1
kind=utf7b
opening=00003
length=00003
used=00000
done=00000
saved=00000
arrived=616263
text=000000610000006200000063
history=
";

const KEPT_OPENED: &str = "status=0\ncount=133\n";

/// A page is kept in its letter's place, and over itself; the letter that is lent to a save is the one that arrived.
fn over_the_letter() -> Nights {
    let first = [("keep letter\n", KEPT_OPENED), ("save back\n", THREE), LEAVES];
    let second = [("keep letter\n", KEPT_OPENED), ("save back\n", THREE), ("show\n", ABC), LEAVES];
    // Every byte of the file is one that UTF-7 has as itself.
    let third = [("save letter\n", KEPT_OPENED), LEAVES];
    Nights {
        name: "a page that is kept in its letter's place",
        before: files(&[("letter", "abc")], OLD_MODE),
        runs: vec![
            run(&["utf7b", "letter"], THREE, &first, &[("letter", OPENED), ("back", "abc")]),
            run(&["page", "letter"], THREE, &second, &[]),
            run(&["utf7h", "letter"], KEPT_OPENED, &third, &[]),
            run(&["page", "back"], "status=18\nplace=0\n", &[UNREAD], &[]),
        ],
    }
}

/// Names to keep a page under, and names that it cannot be kept under: each as it is for a save.
fn names() -> Nights {
    let list = [
        ("keep\n", "desk: keep FILE: the name is missing\n"),
        ("keep new\n", KEPT_OPENED),
        ("keep new\n", KEPT_OPENED),
        ("keep \t two words  \t\r\n", KEPT_OPENED),
        ("keep old\n", KEPT_OPENED),
        ("keep sub\n", "desk: sub: is a directory: save to another name\n"),
        ("keep sub/\n", "desk: sub/: is a directory: save to another name\n"),
        ("keep .\n", "desk: .: is a directory: save to another name\n"),
        ("keep no/new\n", "desk: no/new: no new file can be made beside it: No such file or directory\n"),
        ("keep letter/new\n", "desk: letter/new: Not a directory\n"),
        ("keep letter/\n", "desk: letter/: Not a directory\n"),
        ("keep a\0b\n", "desk: the name of the file has a NUL\n"),
        ("keep sub/new\n", KEPT_OPENED),
        ("keep keep\n", KEPT_OPENED),
        ("keep -", KEPT_OPENED),
    ];
    let kept = ["new", "two words", "old", "sub/new", "keep", "-"].map(|name| (name, OPENED));
    let again = |name: &str| run(&["page", name], THREE, &[("show\n", ABC), LEAVES], &[]);
    Nights {
        name: "names that a page is kept under, and not",
        before: files(&[("letter", "abc"), ("old", "an older file"), ("sub/", "")], OLD_MODE),
        runs: [run(&["utf7b", "letter"], THREE, &list, &kept)]
            .into_iter()
            .chain(kept.map(|(name, _)| again(name)))
            .collect(),
    }
}

const FOREIGN: &str = "form=1
kind=utf7b
opening=00004
length=00004
used=00005
done=00005
saved=00000
arrived=61626364
text=000000410000003D000003910000002E
history=000000010000000100000001000022620000003D
";

const FOREIGN_KEPT: &str = "status=0\ncount=183\n";

/// A file whose step is none on what its bytes read as: where nothing stands, it can be neither saved nor kept.
fn foreign() -> Nights {
    let list = [
        ("keep same\n", FOREIGN_KEPT),
        ("undo\n", FOUR),
        ("show\n", "status=0\ncount=4\ncells=00000041 00002262 00000391 0000002E\n"),
        ("save new\n", UNLIKE),
        ("keep new\n", UNLIKE),
        ("keep no/new\n", UNLIKE),
        ("keep\n", "desk: keep FILE: the name is missing\n"),
        ("redo\n", FOUR),
        ("keep again\n", FOREIGN_KEPT),
        ("save new\n", "status=0\ncount=8\n"),
        LEAVES,
    ];
    Nights {
        name: "a page with the bytes of another letter",
        before: files(&[("kept", FOREIGN)], OLD_MODE),
        runs: vec![run(&["page", "kept"], FOUR, &list, &[("same", FOREIGN), ("again", FOREIGN), ("new", "A=+A5E-.")])],
    }
}

const UNWRITABLE: &str = "form=1
kind=utf7b
opening=00004
length=00004
used=00005
done=00005
saved=none
arrived=412B496D49446B512E
text=000000410000003DFFFFFFFF0000002E
history=000000010000000100000001000022620000003D
";

/// A file whose text has a cell that cannot be written: it can be kept, but not saved before the cell is gone.
fn unwritable() -> Nights {
    let list = [
        ("save new\n", "status=10\nplace=2\n"),
        ("keep same\n", "status=0\ncount=192\n"),
        STAYS,
        ("replace 2 1\n", "status=0\ncount=3\n"),
        ("save new\n", "status=0\ncount=3\n"),
        LEAVES,
    ];
    Nights {
        name: "a page with a cell that cannot be written",
        before: files(&[("kept", UNWRITABLE)], OLD_MODE),
        runs: vec![run(&["page", "kept"], "status=0\ncount=9\n", &list, &[("same", UNWRITABLE), ("new", "A=.")])],
    }
}

/// Starts with files that are no page files, or whose pages are refused: each of `readings` that is refused whatever
/// the room. No command is read.
pub fn refused_files() -> Vec<Transcript> {
    let refused = readings().into_iter().filter(|example| [14, 15, 18].contains(&example.answer.number));
    let start = |example: Filed| {
        let mut before = files(&[("letter", "abc"), ("kept", "")], OLD_MODE);
        let kept = before.entries.get_mut(&b"kept"[..]).expect("a file");
        *kept = Entry::File { bytes: example.file, mode: OLD_MODE };
        let told = format!("status={}\nplace={}\n", example.answer.number, example.answer.place);
        Transcript { before, name: example.name.to_string(), ..run(&["page", "kept"], &told, &[UNREAD], &[]) }
    };
    refused.map(start).collect()
}
