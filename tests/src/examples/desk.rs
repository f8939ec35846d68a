//! Examples of `desk`: all that it is started with, and all that it tells and leaves. What is told is written out by
//! hand.

use std::fmt::{self, Display, Formatter};

use crate::second::files::{Entry, Files};

/// The mode of the files that are there before.
pub const OLD_MODE: u32 = 0o640;

/// What is told, and the files that are saved; all other files stay as they were.
pub struct Transcript {
    pub name: String,
    pub arguments: Vec<Vec<u8>>,
    pub before: Files,
    pub input: Vec<u8>,
    pub output: Vec<u8>,
    pub errors: Vec<u8>,
    pub saved: Vec<(&'static str, &'static str)>,
}

impl Transcript {
    /// The files in the end.
    pub fn after(&self, umask: u32) -> Files {
        self.after_on(&self.before, umask)
    }

    /// The files in the end where these were there before.
    fn after_on(&self, before: &Files, umask: u32) -> Files {
        let mut after = before.clone();
        for (path, saved) in files(&self.saved, 0o666 & !umask).entries {
            match (after.entries.get_mut(&path), saved) {
                // A file that was there keeps its mode.
                (Some(Entry::File { bytes, .. }), Entry::File { bytes: saved, .. }) => *bytes = saved,
                (_, saved) => drop(after.entries.insert(path, saved)),
            }
        }
        after
    }
}

impl Display for Transcript {
    fn fmt(&self, f: &mut Formatter) -> fmt::Result {
        write!(f, "{}", self.name)
    }
}

/// Runs one after another in one folder; what is there before a later one is what those before it left.
pub struct Nights {
    pub name: &'static str,
    pub before: Files,
    pub runs: Vec<Transcript>,
}

impl Nights {
    /// The files after each run.
    pub fn after(&self, umask: u32) -> Vec<Files> {
        let next = |files: &mut Files, run: &Transcript| {
            *files = run.after_on(files, umask);
            Some(files.clone())
        };
        self.runs.iter().scan(self.before.clone(), next).collect()
    }
}

impl Display for Nights {
    fn fmt(&self, f: &mut Formatter) -> fmt::Result {
        write!(f, "{}", self.name)
    }
}

/// Files with this mode; a path that ends in a slash is a folder's.
pub fn files(list: &[(&str, &str)], mode: u32) -> Files {
    let entry = |&(path, contents): &(&str, &str)| match path.strip_suffix('/') {
        Some(path) => (path.as_bytes().to_vec(), Entry::Folder),
        None => (path.as_bytes().to_vec(), Entry::File { bytes: contents.as_bytes().to_vec(), mode }),
    };
    Files { entries: list.iter().map(entry).collect() }
}

pub fn words(arguments: &[&str]) -> Vec<Vec<u8>> {
    arguments.iter().map(|argument| argument.as_bytes().to_vec()).collect()
}

/// Document 01: "Body page on P2, one cell at 1 replaced by 003D: (..) save "A=+A5E-."; undo, save "A+ImIDkQ."; undo
/// again: 13."
pub fn worked() -> Vec<Transcript> {
    vec![Transcript {
        name: "the worked page".to_string(),
        arguments: words(&["utf7b", "letter"]),
        before: files(&[("letter", "A+ImIDkQ.")], OLD_MODE),
        input: b"show\nreplace 1 1 3D\nshow\nsave changed\nundo\nsave as it came\nundo\n".to_vec(),
        output: b"status=0\ncount=4\n\
            status=0\ncount=4\ncells=00000041 00002262 00000391 0000002E\n\
            status=0\ncount=4\n\
            status=0\ncount=4\ncells=00000041 0000003D 00000391 0000002E\n\
            status=0\ncount=8\n\
            status=0\ncount=4\n\
            status=0\ncount=9\n\
            status=13\nplace=0\n"
            .to_vec(),
        errors: vec![],
        saved: vec![("changed", "A=+A5E-."), ("as it came", "A+ImIDkQ.")],
    }]
}

/// Lines, each with what is told for it, on the letter "abc".
fn lines(name: &str, list: &[(&[u8], &str)], saved: &[(&'static str, &'static str)]) -> Transcript {
    let told = |on_errors: bool| -> Vec<u8> {
        let told = list.iter().map(|&(_, told)| told).filter(|told| told.starts_with("desk: ") == on_errors);
        told.flat_map(str::bytes).collect()
    };
    Transcript {
        name: name.to_string(),
        arguments: words(&["utf7b", "letter"]),
        before: files(BEFORE, OLD_MODE),
        input: list.iter().flat_map(|&(line, _)| line).copied().collect(),
        output: [b"status=0\ncount=3\n", &told(false)[..]].concat(),
        errors: told(true),
        saved: saved.to_vec(),
    }
}

const BEFORE: &[(&str, &str)] = &[
    ("letter", "abc"),
    ("old", "an older file"),
    ("busy", "another"),
    ("busy.new", "that somebody else makes"),
    ("taken.new/", ""),
    ("sub/", ""),
];

/// Lines that are complained of, in groups, each with the complaint.
pub const BAD_LINES: [(&str, &[&[u8]]); 6] = [
    (
        "desk: no such command: show, replace PLACE COUNT CELL.., undo, redo, squeeze K, save FILE, keep FILE, quit\n",
        &[
            b"Show",
            b"SHOW",
            b"shows",
            b"sho",
            b"sh ow",
            b"show\0",
            b"\0show",
            b"\0",
            b"show\x0B",
            b"\x0Cshow",
            b"\xC2\xA0show",
            b"\xEF\xBB\xBFshow",
            b"\xFF",
            b"  \t\x80 show",
            b"show;",
            b"?",
            b"#",
            b"Undo",
            b"undo1",
            b"undo,undo",
            b"UNDO 1",
            b"REDO",
            b"redo\x7F",
            b"Quit",
            b"quit.",
            b"exit",
            b"Squeeze 2",
            b"squeezes 2",
            b"squeeze2",
            b"squeez 2",
            b"squeeze\0 2",
            b"Save out",
            b"saveout",
            b"save\x0Bout",
            b"save\0out",
            b"Keep out",
            b"keepout",
            b"keeps out",
            b"kee out",
            b"keep\0out",
            b"page out",
            b"Replace 0 0 61",
            b"replace0 0 61",
            b"replace\0 0 0 61",
            b"0 0 61",
            b"status=0",
        ],
    ),
    (
        "desk: nothing may follow this command\n",
        &[
            b"show 1",
            b"show show",
            b"show\t\xFF",
            b"undo 1",
            b" undo undo",
            b"undo .",
            b"redo \0",
            b"redo\rredo",
            b"quit now",
            b"quit quit",
            b"\tquit \x0B ",
        ],
    ),
    (
        "desk: replace PLACE COUNT CELL..: two decimal numbers, then cells in hex, none over FFFFFFFF\n",
        &[
            b"replace",
            b"replace 0",
            b"replace \t 1 \r",
            b"replace a 0 61",
            b"replace 0 a 61",
            b"replace A 0",
            b"replace / 0 61",
            b"replace : 0 61",
            b"replace 0 / 61",
            b"replace 0 : 61",
            b"replace -1 0 61",
            b"replace +1 0 61",
            b"replace 0 -0 61",
            b"replace 0x1 0 61",
            b"replace 1. 0",
            b"replace 0.0 0",
            b"replace 1,0 61",
            b"replace 0 1e1",
            b"replace 0\0 0 61",
            b"replace \xD9\xA1 0 61",
            b"replace \xB2 0 61",
            b"replace one one",
            b"replace 0 0 g",
            b"replace 0 0 G",
            b"replace 0 0 @",
            b"replace 0 0 `",
            b"replace 0 0 /",
            b"replace 0 0 :",
            b"replace 0 0 0x61",
            b"replace 0 0 61h",
            b"replace 0 0 U+0061",
            b"replace 0 0 61,62",
            b"replace 0 0 -61",
            b"replace 0 0 61 62 6G 63",
            b"replace 0 0 61 show",
            b"replace 0 0 61\0",
            b"replace 0 0 61\x0B62",
            b"replace 0 0 \xB9",
            b"replace 4294967296 0",
            b"replace 0 4294967296",
            b"replace 0 0 100000000",
            b"replace 4294967297 0 61",
            b"replace 1 4294967297 61",
            b"replace 0 0 61 100000061",
            b"replace 000000000004294967296 0",
            b"replace 0 0 0000000000000000100000000",
            b"replace 42949672950 0",
            b"replace 0 0 FFFFFFFF0",
            b"replace 18446744073709551616 0",
            b"replace 0 18446744073709551617",
            b"replace 0 0 10000000000000061",
            b"replace 0 0 100000000000000000000000000000061",
            b"replace 340282366920938463463374607431768211456 0 61",
        ],
    ),
    (
        "desk: squeeze K: one decimal number, not over 4294967295\n",
        &[
            b"squeeze",
            b"squeeze \t \r",
            b"squeeze all",
            b"squeeze A",
            b"squeeze /",
            b"squeeze :",
            b"squeeze -2",
            b"squeeze +2",
            b"squeeze 0x2",
            b"squeeze 2.",
            b"squeeze 2\0",
            b"squeeze \xB2",
            b"squeeze 2 3",
            b"squeeze 2 2",
            b"squeeze 2 61 62",
            b"squeeze 2 x",
            b"squeeze 2 show",
            b"squeeze 4294967296",
            b"squeeze 4294967298",
            b"squeeze 42949672950",
            b"squeeze 000000000004294967296",
            b"squeeze 18446744073709551618",
            b"squeeze 340282366920938463463374607431768211458",
        ],
    ),
    ("desk: save FILE: the name is missing\n", &[b"save", b" save", b"save \t\r ", b"\tsave\t"]),
    ("desk: keep FILE: the name is missing\n", &[b"keep", b" keep", b"keep \t\r ", b"\tkeep\t"]),
];

/// Every line that is complained of, ended by LF and by CR LF; nothing is done for them.
pub fn bad_lines() -> Vec<Transcript> {
    let transcript = |(complaint, group): (&'static str, &[&[u8]])| {
        let ended: Vec<Vec<u8>> =
            group.iter().flat_map(|line| [b"\n", &b"\r\n"[..]].map(|end| [line, end].concat())).collect();
        let list = ended.iter().map(|line| (&line[..], complaint));
        let list: Vec<(&[u8], &str)> = list.chain([ALL_OF_ABC]).collect();
        lines(complaint.trim_end(), &list, &[])
    };
    BAD_LINES.into_iter().map(transcript).collect()
}

const ALL_OF_ABC: (&[u8], &str) = (b"show\n", "status=0\ncount=3\ncells=00000061 00000062 00000063\n");

/// What is told when the input has ended.
const ENDED_NOT_SAVED: Line = (b"", "desk: the input has ended, and the page is not saved\n");

/// Lines that are just right.
pub fn odd_lines() -> Vec<Transcript> {
    let numbers: &[(&[u8], &str)] = &[
        (b"replace 4294967295 0\n", "status=11\nplace=3\n"),
        (b"replace 0 4294967295\n", "status=11\nplace=3\n"),
        (b"replace 4294967295 4294967295 FFFFFFFF\n", "status=11\nplace=3\n"),
        (b"replace 0000000000004294967295 0\n", "status=11\nplace=3\n"),
        (b"replace 1 3 61\n", "status=11\nplace=3\n"),
        (b"replace 4 0\n", "status=11\nplace=3\n"),
        (b"replace 0 0 FFFFFFFF\n", "status=10\nplace=0\n"),
        (b"replace 0 0 61 fffffFFF\n", "status=10\nplace=1\n"),
        (b"replace 0 0 61 62 000000000000000000010000\n", "status=10\nplace=2\n"),
        ALL_OF_ABC,
        (b"replace 000 00 00000000000000000000000000000000000000041\n", "status=0\ncount=4\n"),
        (b"replace 4 0 aB CdEf 0 fFfF\n", "status=0\ncount=8\n"),
        (b"replace 1 2\n", "status=0\ncount=6\n"),
        (b"replace 6 0\n", "status=0\ncount=6\n"),
        (b"show\n", "status=0\ncount=6\ncells=00000041 00000063 000000AB 0000CDEF 00000000 0000FFFF\n"),
        ENDED_NOT_SAVED,
    ];
    let blanks: &[(&[u8], &str)] = &[
        (b"\n", ""),
        (b"\r\n", ""),
        (b" \t\r \n", ""),
        (b"\rundo\r\n", "status=13\nplace=0\n"),
        (b"\t redo \t\n", "status=13\nplace=0\n"),
        (b" \r\treplace\t\t1\r0 \t 4a\r\r4A \r\n", "status=0\ncount=5\n"),
        (b"undo\r", "status=0\ncount=3\n"),
        (b"\n", ""),
        (b"redo", "status=0\ncount=5\n"),
        ENDED_NOT_SAVED,
    ];
    let after_quit: &[(&[u8], &str)] = &[ALL_OF_ABC, (b" quit \r\n", ""), (b"show\nsave out\nshows\n", "")];
    vec![
        lines("the largest numbers and others with zeros before them", numbers, &[]),
        lines("blanks of all sorts, and a last line without LF", blanks, &[]),
        lines("nothing is done after quit", after_quit, &[]),
    ]
}

/// Files that are saved, and files that cannot be.
pub fn saves() -> Vec<Transcript> {
    let three = "status=0\ncount=3\n";
    let list: &[(&[u8], &str)] = &[
        (b"save new\n", three),
        (b"save new\n", three),
        (b"save \t two words  \t\r\n", three),
        (b"save old\n", three),
        (b"save busy\n", three),
        (b"save taken\n", three),
        (b"save sub\n", "desk: sub: is a directory: save to another name\n"),
        (b"save sub/\n", "desk: sub/: is a directory: save to another name\n"),
        (b"save .\n", "desk: .: is a directory: save to another name\n"),
        (b"save sub/..\n", "desk: sub/..: is a directory: save to another name\n"),
        (b"save no/new\n", "desk: no/new: no new file can be made beside it: No such file or directory\n"),
        (b"save no/\n", "desk: no/: no new file can be made beside it: No such file or directory\n"),
        (b"save letter/new\n", "desk: letter/new: Not a directory\n"),
        (b"save letter/\n", "desk: letter/: Not a directory\n"),
        (b"save a\0b\n", "desk: the name of the file has a NUL\n"),
        (b"save sub/new\n", three),
        (b"save x.new\n", three),
        (b"save x\n", three),
        (b"save -\n", three),
        (b"replace 1 1\n", "status=0\ncount=2\n"),
        (b"save letter\n", "status=0\ncount=2\n"),
        (b"save save\n", "status=0\ncount=2\n"),
        (b"undo\n", three),
        (b"save as it came", three),
    ];
    let saved = [
        ("new", "abc"),
        ("two words", "abc"),
        ("old", "abc"),
        ("busy", "abc"),
        ("taken", "abc"),
        ("sub/new", "abc"),
        ("x.new", "abc"),
        ("x", "abc"),
        ("-", "abc"),
        ("letter", "ac"),
        ("save", "ac"),
        ("as it came", "abc"),
    ];
    vec![lines("files saved and not saved", list, &saved), names_of_no_text()]
}

/// What is told of a name that is no UTF-8 text.
fn no_text(name: &[u8]) -> Vec<u8> {
    [b"desk: ", name, b": Invalid or incomplete multibyte or wide character\n"].concat()
}

/// Names that are no UTF-8 text, to save to and to keep to: also where there is a file of that name, where their folder
/// is none, and where nothing would be complained of else. A name that is such text is like others.
fn names_of_no_text() -> Transcript {
    let names: [&[u8]; 6] =
        [b"\xFF", b"two \x80 words", b"\xE6\x97", b"sub/\xC0\xAF", b"no/\xED\xA0\x80", b"letter/\x80"];
    let put = |word: &str| -> Vec<u8> {
        names.iter().flat_map(|name| [word.as_bytes(), b" ", name, b"\n"].concat()).collect()
    };
    let list: &[Line] = &[
        ADD,
        (&put("save"), ""),
        (&put("keep"), ""),
        STAYS,
        ("save 日本\n".as_bytes(), "status=0\ncount=4\n"),
        LEAVES,
    ];
    let said: Vec<u8> = names.iter().flat_map(|name| no_text(name)).collect();
    let mut transcript = lines("names that are no text", list, &[("日本", "Aabc")]);
    transcript.before.entries.insert(b"\xFF".to_vec(), Entry::File { bytes: b"another".to_vec(), mode: OLD_MODE });
    transcript.errors = [&said[..], &said, STAYS.1.as_bytes()].concat();
    transcript
}

/// A line with what is told for it.
type Line<'a> = (&'a [u8], &'a str);

const ADD: Line = (b"replace 0 0 41\n", "status=0\ncount=4\n");
const UNDO: Line = (b"undo\n", "status=0\ncount=3\n");
const REDO: Line = (b"redo\n", "status=0\ncount=4\n");
const SAVE: Line = (b"save new\n", "status=0\ncount=4\n");
const BLANK: Line = (b" \t\r\n", "");
const STAYS: Line = (b"quit\n", "desk: the page is not saved: save FILE, or quit again to leave it\n");
const LEAVES: Line = (b" quit\r\n", "");
const UNREAD: Line = (b"show\nshows\n", "");
const MISSING: Line = (b"save\n", "desk: save FILE: the name is missing\n");
const BARRED: Line = (b"save sub\n", "desk: sub: is a directory: save to another name\n");
const BESIDE: Line = (b"save no/new\n", "desk: no/new: no new file can be made beside it: No such file or directory\n");

/// Pages that are left saved, and pages that are not.
pub fn quits() -> Vec<Transcript> {
    let new = [("new", "Aabc")];
    vec![
        lines("two quits", &[ADD, STAYS, LEAVES, UNREAD], &[]),
        lines("lines with no word between two quits", &[ADD, STAYS, BLANK, BLANK, LEAVES, UNREAD], &[]),
        quits_apart(),
        lines("a quit and the end of the input", &[ADD, STAYS, ENDED_NOT_SAVED], &[]),
        lines("a page that is saved", &[ADD, STAYS, SAVE, LEAVES, UNREAD], &new),
        lines("a page that could not be saved", &[ADD, BARRED, BESIDE, MISSING, STAYS, ENDED_NOT_SAVED], &[]),
        lines("a file that could not be put after one that was", &[ADD, SAVE, UNDO, BARRED, STAYS, REDO, LEAVES], &new),
        lines("undo back to what was opened", &[ADD, UNDO, LEAVES, UNREAD], &[]),
        lines("undo away from what was saved", &[ADD, SAVE, UNDO, STAYS, REDO, LEAVES, UNREAD], &new),
        lines("what was saved is lost", &[ADD, SAVE, UNDO, ADD, STAYS, UNDO, STAYS, REDO, ENDED_NOT_SAVED], &new),
        lines("a page that nothing was done to", &[LEAVES, UNREAD], &[]),
    ]
}

/// Every `quit` is a first one here, for another line comes before it, but the last.
fn quits_apart() -> Transcript {
    let long = [&[b' '; 70_000][..], b"\n"].concat();
    let between: [Line; 10] = [
        (b"show\n", "status=0\ncount=4\ncells=00000041 00000061 00000062 00000063\n"),
        (b"redo\n", "status=13\nplace=0\n"),
        (b"quit quit\n", "desk: nothing may follow this command\n"),
        (
            b"exit\n",
            "desk: no such command: show, replace PLACE COUNT CELL.., undo, redo, squeeze K, save FILE, keep FILE, quit\n",
        ),
        (b"replace 0 5\n", "status=11\nplace=4\n"),
        (b"squeeze 2\n", "status=11\nplace=0\n"),
        (b"squeeze\n", "desk: squeeze K: one decimal number, not over 4294967295\n"),
        (&long, "desk: a line is longer than 65535 bytes\n"),
        MISSING,
        BARRED,
    ];
    let list = [ADD, STAYS].into_iter().chain(between.into_iter().flat_map(|line| [line, STAYS]));
    lines("other lines between quits", &list.chain([LEAVES, UNREAD]).collect::<Vec<_>>(), &[])
}

/// "abc" becomes "Abc", "ABc" and "ABC", each by a record of 5 words.
const FIRST: Line = (b"replace 0 1 41\n", "status=0\ncount=3\n");
const SECOND: Line = (b"replace 1 1 42\n", "status=0\ncount=3\n");
const THIRD: Line = (b"replace 2 1 43\n", "status=0\ncount=3\n");
const BACK: Line = UNDO;
const KEPT: Line = (b"save new\n", "status=0\ncount=3\n");
/// Two of them become one record of 9 words: of three there are 14 words then.
const TWO: Line = (b"squeeze 2\n", "status=0\ncount=9\n");
const TWO_OF_THREE: Line = (b"squeeze 2\n", "status=0\ncount=14\n");
const FEW: &str = "status=11\nplace=0\n";
const NO_GAIN: &str = "status=19\nplace=0\n";

/// Pages on which old steps are folded into one, and pages on which they cannot be.
pub fn squeezes() -> Vec<Transcript> {
    let [first, second] = [[("new", "Abc")], [("new", "ABc")]];
    vec![
        folded(),
        gained(),
        lines("an undo goes back over the fold", &[FIRST, SECOND, TWO, STAYS, BACK, ALL_OF_ABC, LEAVES, UNREAD], &[]),
        lines("a page that is saved is so after a squeeze", &[FIRST, SECOND, KEPT, TWO, LEAVES, UNREAD], &second),
        lines(
            "what was saved is at the end of the fold",
            &[FIRST, SECOND, KEPT, THIRD, TWO_OF_THREE, STAYS, BACK, LEAVES, UNREAD],
            &second,
        ),
        lines(
            "what was saved is inside the fold",
            &[FIRST, KEPT, SECOND, THIRD, TWO_OF_THREE, STAYS, BACK, STAYS, BACK, ALL_OF_ABC, STAYS, ENDED_NOT_SAVED],
            &first,
        ),
    ]
}

/// Steps are folded while one is undone, and then with it.
fn folded() -> Transcript {
    let (three, four) = ("status=0\ncount=3\n", "status=0\ncount=4\n");
    let list: &[(&[u8], &str)] = &[
        (b"squeeze 2\n", FEW),
        FIRST,
        SECOND,
        THIRD,
        (b"replace 3 0 44\n", four),
        (b"squeeze 0\n", FEW),
        (b"squeeze 1\n", FEW),
        (b"squeeze 5\n", FEW),
        (b"squeeze 4294967295\n", FEW),
        (b"undo\n", three),
        (b"squeeze 4\n", FEW),
        (b" squeeze\t0000000000000000000003 \r\n", "status=0\ncount=13\n"),
        (b"squeeze 2\n", FEW),
        (b"redo\n", four),
        (b"undo\n", three),
        (b"undo\n", three),
        ALL_OF_ABC,
        (b"undo\n", "status=13\nplace=0\n"),
        (b"redo\n", three),
        (b"show\n", "status=0\ncount=3\ncells=00000041 00000042 00000043\n"),
        (b"redo\n", four),
        (b"squeeze 2\n", "status=0\ncount=10\n"),
        (b"undo\n", three),
        ALL_OF_ABC,
        (b"redo\n", four),
        (b"save new\n", four),
        (b"squeeze 2", FEW),
    ];
    lines("old steps folded into one", list, &[("new", "ABCD")])
}

/// The words must become fewer.
fn gained() -> Transcript {
    let list: &[(&[u8], &str)] = &[
        ADD,
        (b"replace 0 0 42\n", "status=0\ncount=5\n"),
        (b"squeeze 2\n", NO_GAIN),
        (b"replace 0 0 43\n", "status=0\ncount=6\n"),
        (b"squeeze 3\n", NO_GAIN),
        (b"undo\n", "status=0\ncount=5\n"),
        (b"undo\n", "status=0\ncount=4\n"),
        (b"replace 0 1 44\n", "status=0\ncount=4\n"),
        (b"replace 0 1\n", "status=0\ncount=3\n"),
        (b"squeeze 2\n", NO_GAIN),
        (b"squeeze 3\n", "status=0\ncount=9\n"),
        ALL_OF_ABC,
        (b"undo\n", "status=0\ncount=3\n"),
        (b"quit\n", ""),
    ];
    lines("squeezes with no gain", list, &[])
}

/// Starts that fail, each with what is complained of; and letters that are refused. None reads a command.
pub fn starts() -> Vec<Transcript> {
    let use_ = "desk: use: desk KIND FILE, where KIND is utf7h, utf7b or jp2, or desk page FILE\n";
    let kind = "desk: KIND is utf7h, utf7b or jp2, or page for a page that was kept\n";
    let fails = |arguments: &[&str], errors: &str| start(arguments, "", errors);
    let refused = |arguments: &[&str], output: &str| start(arguments, output, "");
    let (part, long_part) = ("n".repeat(255), "n".repeat(256));
    let [longest, long, longer] = [4_095, 4_096, 4_097].map(|length| format!("{:/<1$}", ".", length));
    vec![
        fails(&[], use_),
        fails(&["utf7b"], use_),
        fails(&["letter"], use_),
        fails(&["utf7b", "letter", "letter"], use_),
        fails(&["utf7b", "letter", ""], use_),
        fails(&["utf7", "letter"], kind),
        fails(&["UTF7B", "letter"], kind),
        fails(&["utf7bh", "letter"], kind),
        fails(&["jp2 ", "letter"], kind),
        fails(&["", "letter"], kind),
        fails(&["letter", "utf7b"], kind),
        fails(&["jp", "missing"], kind),
        fails(&["jp3", &longer], kind),
        fails(&["page"], use_),
        fails(&["page", "letter", "kept"], use_),
        fails(&["Page", "letter"], kind),
        fails(&["pages", "letter"], kind),
        fails(&["pag", "letter"], kind),
        fails(&["page ", "letter"], kind),
        fails(&["letter", "page"], kind),
        fails(&["jp2", "missing"], "desk: missing: No such file or directory\n"),
        fails(&["utf7h", "Letter"], "desk: Letter: No such file or directory\n"),
        fails(&["utf7h", ""], "desk: : No such file or directory\n"),
        fails(&["utf7h", "no/letter"], "desk: no/letter: No such file or directory\n"),
        fails(&["utf7b", " letter"], "desk:  letter: No such file or directory\n"),
        fails(&["utf7b", "letter/letter"], "desk: letter/letter: Not a directory\n"),
        fails(&["utf7b", "letter/"], "desk: letter/: Not a directory\n"),
        fails(&["jp2", "sub"], "desk: sub: Is a directory\n"),
        fails(&["jp2", "."], "desk: .: Is a directory\n"),
        fails(&["utf7h", &part], &format!("desk: {part}: No such file or directory\n")),
        fails(&["utf7h", &long_part], &format!("desk: {long_part}: File name too long\n")),
        fails(&["utf7b", &longest], &format!("desk: {longest}: Is a directory\n")),
        fails(&["utf7b", &long], &format!("desk: {long}: File name too long\n")),
        fails(&["utf7b", &longer], "desk: FILE: File name too long\n"),
        fails(&["page", "missing"], "desk: missing: No such file or directory\n"),
        fails(&["page", "page"], "desk: page: No such file or directory\n"),
        fails(&["page", ""], "desk: : No such file or directory\n"),
        fails(&["page", "letter/"], "desk: letter/: Not a directory\n"),
        fails(&["page", "sub"], "desk: sub: Is a directory\n"),
        fails(&["page", "."], "desk: .: Is a directory\n"),
        fails(&["page", &long_part], &format!("desk: {long_part}: File name too long\n")),
        fails(&["page", &long], &format!("desk: {long}: File name too long\n")),
        fails(&["page", &longer], "desk: FILE: File name too long\n"),
        of_no_text("utf7b"),
        of_no_text("page"),
        refused(&["page", "letter"], "status=18\nplace=0\n"),
        refused(&["page", "empty"], "status=18\nplace=0\n"),
        refused(&["page", "sub/form"], "status=18\nplace=7\n"),
        refused(&["utf7h", "bare"], "status=2\nplace=1\n"),
        refused(&["utf7b", "sub/bits"], "status=4\nplace=4\n"),
        refused(&["jp2", "pair"], "status=7\nplace=4\n"),
        refused(&["jp2", "./pairs"], "status=8\nplace=5\n"),
    ]
}

fn start(arguments: &[&str], output: &str, errors: &str) -> Transcript {
    let shown: Vec<&str> = arguments.iter().map(|argument| &argument[..argument.len().min(40)]).collect();
    let letters = [
        ("letter", "abc"),
        ("bare", "+"),
        ("pair", "\x1B$B$"),
        ("pairs", "\x1B$B$\""),
        ("empty", ""),
        ("sub/", ""),
        ("sub/bits", "+AKN-"),
        ("sub/form", "form=1\n"),
    ];
    Transcript {
        name: format!("a start with {shown:?}"),
        arguments: words(arguments),
        before: files(&letters, OLD_MODE),
        input: b"show\nsave new\nshows\n".to_vec(),
        output: output.as_bytes().to_vec(),
        errors: errors.as_bytes().to_vec(),
        saved: vec![],
    }
}

/// A start on a file whose name is no UTF-8 text, with this first argument.
fn of_no_text(word: &str) -> Transcript {
    let name = b"a \xFF letter";
    let mut transcript = start(&[word, "a \u{FFFD} letter"], "", "");
    transcript.arguments[1] = name.to_vec();
    transcript.before.entries.insert(name.to_vec(), Entry::File { bytes: b"abc".to_vec(), mode: OLD_MODE });
    transcript.errors = no_text(name);
    transcript
}

/// Every example of one run, for the unit tests.
#[cfg(test)]
pub fn all() -> Vec<Transcript> {
    let refused = super::nights::refused_files();
    [worked(), bad_lines(), odd_lines(), saves(), quits(), squeezes(), starts(), refused]
        .into_iter()
        .flatten()
        .collect()
}
