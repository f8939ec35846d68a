//! Scripts with letters, lines and pages that are as long as can be, and longer.

use super::script::{Nights, Script};
use super::seeded::{long_name, on_letter, LONG_NAMES, NAMES, OTHERS};
use crate::examples::desk::{files, words, BAD_LINES, OLD_MODE};
use crate::rng::Rng;
use crate::second::desk::{self as second, HISTORY, LONGEST_LINE, ROOM};
use crate::second::files::Entry;
use crate::second::{Kind, LIMIT};
use crate::texts;

/// The byte that the letters are made of.
const BYTE: u8 = b'a';

/// The cell that it is read as, in hex.
fn cell(kind: Kind) -> String {
    format!("{:X}", kind.read(&[BYTE]).expect("a whole text")[0])
}

/// A script on a letter, with others beside it.
fn script(kind: Kind, letter: &[u8], lines: Vec<Vec<u8>>) -> Script {
    Script { lines, ..on_letter(kind, "letter", "letter", letter.to_vec(), OTHERS) }
}

/// Each of these, with LF.
fn ended(lines: impl IntoIterator<Item = impl AsRef<[u8]>>) -> Vec<Vec<u8>> {
    lines.into_iter().map(|line| [line.as_ref(), b"\n"].concat()).collect()
}

/// A letter of each frame, short and as long as can be, and letters that are too long.
pub fn letters(kind: Kind) -> impl Iterator<Item = Script> {
    let source = texts::of_kind(kind);
    let of_frames = [40, LIMIT].into_iter().flat_map(|length| source.texts_of_length(length));
    let faulty = [&b"\x80"[..], &[BYTE; LIMIT]].concat();
    let too_long = [vec![BYTE; LIMIT + 1], faulty, vec![BYTE; 3 * LIMIT]];
    of_frames.chain(too_long).map(move |letter| script(kind, &letter, ended(["show", "undo", "shows", "quit", "undo"])))
}

/// Pages as long as can be, with lines that they just take and lines that they just do not.
pub fn pages(kind: Kind) -> Vec<Script> {
    let cell = cell(kind);
    let full = [
        "show".to_string(),
        format!("replace 0 0 {cell}"),
        format!("replace {LIMIT} 0 {cell} {cell}"),
        format!("replace {LIMIT} 0"),
        format!("replace {} 1 {cell}", LIMIT - 1),
        format!("replace {LIMIT} 1 {cell}"),
        "undo".to_string(),
        "undo".to_string(),
        "undo".to_string(),
        format!("replace 0 {LIMIT}"),
        format!("replace 0 {}", HISTORY - 2),
        format!("replace 0 {HISTORY} {cell}"),
        format!("replace 0 {}", HISTORY - 3),
        "replace 0 0".to_string(),
        "squeeze 2".to_string(),
        "save short".to_string(),
        "show".to_string(),
        "undo".to_string(),
        "save as it came".to_string(),
        "keep long".to_string(),
        "redo".to_string(),
        "redo".to_string(),
        "undo".to_string(),
        format!("replace 0 {} {cell}", HISTORY - 4),
        "save short".to_string(),
    ];
    vec![script(kind, &[BYTE; LIMIT], ended(full)), grown(kind)]
}

/// A run on a page file, beside which these are put.
fn gone_on(name: &str, put: &[(&str, &[u8])], lines: &[&str]) -> Script {
    let mut files = files(&[], OLD_MODE);
    let entry = |bytes: &[u8]| Entry::File { bytes: bytes.to_vec(), mode: OLD_MODE };
    files.entries.extend(put.iter().map(|&(path, bytes)| (path.as_bytes().to_vec(), entry(bytes))));
    Script { arguments: words(&["page", name]), files, lines: ended(lines) }
}

/// The file of this name that a run leaves.
fn kept_by(script: &Script, name: &str) -> Vec<u8> {
    let left = second::run(&script.start(0o22)).files;
    let Some(Entry::File { bytes, .. }) = left.entries.get(name.as_bytes()) else { panic!("no file is kept") };
    bytes.clone()
}

/// What is done with a page file.
const ENDS: [&str; 8] = ["show", "undo", "save back", "redo", "redo", "save short", "keep longest", "quit"];

pub fn nights(kind: Kind) -> [Nights; 2] {
    [nights_before(kind), longest_nights(kind)]
}

/// The longest page file that there was before order 10: of a letter, a text and a history of 65,536 elements each. It is
/// kept and gone on with; then bytes are added behind it, or taken from its end.
fn nights_before(kind: Kind) -> Nights {
    let most = 65_536;
    let first = script(
        kind,
        &vec![BYTE; most],
        ended(["keep opened", &format!("replace 0 {}", most - 3), "keep stepped", "undo", "keep longest"]),
    );
    let longest = kept_by(&first, "longest");
    assert_eq!(longest.len(), 1_179_746 + second::kind_word(kind).len());
    let more = |count: usize| [&longest[..], &vec![b'\n'; count]].concat();
    let run = gone_on;
    Nights {
        runs: vec![
            first,
            run("longest", &[], &["undo", "save back", "redo", "show", "keep stepped too", "undo", "keep longest"]),
            run("stepped", &[], &ENDS),
            run("opened", &[], &["replace 0 65536", "keep opened", "undo", "show", "save back"]),
            run("longest", &[], &ENDS),
            run("more", &[("more", &more(1))], &ENDS),
            run("more", &[("more", &more(2))], &ENDS),
            run("less", &[("less", &longest[..longest.len() - 1])], &ENDS),
        ],
    }
}

/// The longest page file that is kept and gone on with, and pages whose files are a little longer. A step of k cells that
/// is undone takes 8 k + 24 bytes, and a mark that is none 3 fewer than one that is a number.
fn longest_nights(kind: Kind) -> Nights {
    let others = 129 + second::kind_word(kind).len();
    let length = if kind == Kind::Jp2 { 130_002 } else { 130_001 };
    let removed = (ROOM - others - 10 * length) / 8;
    let first = script(
        kind,
        &vec![BYTE; length],
        ended([
            &format!("replace 0 {removed}"),
            "undo",
            "keep marked",
            "redo",
            "save marked",
            "undo",
            &format!("replace 0 {}", removed + 1),
            "undo",
            "keep over",
            &format!("replace 0 {removed}"),
            "keep stepped",
            "undo",
            "keep longest",
        ]),
    );
    let longest = kept_by(&first, "longest");
    assert_eq!(longest.len(), ROOM);
    let more = |count: usize| [&longest[..], &vec![b'\n'; count]].concat();
    Nights {
        runs: vec![
            first,
            gone_on(
                "longest",
                &[],
                &["redo", "show", "keep stepped too", "undo", "keep longest", "replace 0 0", "keep over"],
            ),
            gone_on("stepped", &[], &ENDS),
            gone_on("longest", &[], &ENDS),
            gone_on("more", &[("more", &more(1))], &ENDS),
            gone_on("more", &[("more", &more(300_000))], &ENDS),
            gone_on("less", &[("less", &longest[..longest.len() - 1])], &ENDS),
        ],
    }
}

/// A page that grows by lines that are as long as can be, of cells that take many bytes each when they are written, until
/// there is no room to save it. Its history is squeezed where it has no room left, and takes more then.
fn grown(kind: Kind) -> Script {
    let (letter, pattern) = match kind {
        Kind::Utf7Header | Kind::Utf7Body => (["+", &"AKMAowCj".repeat(110_000), "-"].concat(), "A3 2D "),
        Kind::Jp2 => ("a".repeat(500_000), "952121 9F2121 "),
    };
    let start = "replace 0 0 ";
    let cells = pattern.repeat((LONGEST_LINE - start.len()) / pattern.len());
    let longest = format!("{:<1$}", format!("{start}{cells}"), LONGEST_LINE);
    let lines = ended(["save as it came"])
        .into_iter()
        .chain(vec![longest.clone().into_bytes(); 29].into_iter().map(|line| [&line[..], b"\n"].concat()))
        .chain(ended(["save large", "show", "undo", "save large", "undo", "redo", "redo", "save old"]))
        .chain(ended([
            "squeeze 40",
            "squeeze 27",
            "squeeze 12",
            "squeeze 2",
            &longest,
            "show",
            "undo",
            "undo",
            "show",
            "redo",
            "redo",
        ]));
    script(kind, letter.as_bytes(), lines.collect())
}

/// A line with its LF, which is as much as is read at once.
const READ: usize = LONGEST_LINE + 1;

/// Lines about as long as can be and longer, all in one script; and scripts that end in such a line, without LF.
pub fn lines(kind: Kind) -> Vec<Script> {
    let lengths = [LONGEST_LINE - 1, LONGEST_LINE, LONGEST_LINE + 1, LONGEST_LINE + 2];
    let longer = [70_000, 2 * READ - 1, 2 * READ, 2 * READ + 1, 200_000];
    let all = lengths.into_iter().chain(longer).flat_map(|length| long_lines(kind, length));
    let lines = all.flat_map(|line| ended([&line[..], b"show"])).collect();
    let whole = [script(kind, b"ab", lines)];
    let last = lengths.into_iter().chain([70_000, 2 * READ]).flat_map(|length| {
        let [first, second, ..] = long_lines(kind, length);
        [first, second].map(|line| script(kind, b"ab", ended(["undo"]).into_iter().chain([line]).collect()))
    });
    whole.into_iter().chain(last).collect()
}

/// Lines of this length: with many blanks, with many zeros, with words that are long, and with an end that by itself
/// would be a command.
fn long_lines(kind: Kind, length: usize) -> [Vec<u8>; 11] {
    let cell = cell(kind);
    let filled = |start: &str, filling: u8, end: &str| {
        let count = length - start.len() - end.len();
        [start.as_bytes(), &vec![filling; count], end.as_bytes()].concat()
    };
    [
        filled("redo", b' ', ""),
        filled("replace 0 0 ", b'0', &cell),
        filled("", b'\t', "undo"),
        filled("replace ", b'0', " 1"),
        filled("replace 1 ", b'0', " FFFFFFFF"),
        filled("", b'\r', ""),
        filled("", b'x', "\rundo"),
        filled("save ", b'n', ""),
        filled("keep ", b'n', ""),
        filled("quit", b' ', "0"),
        filled("squeeze ", b'0', "2"),
    ]
}

/// Every name that is saved to, short and long; and names in a folder that has the letter alone.
pub fn names(kind: Kind) -> Vec<Script> {
    let long = LONG_NAMES.iter().map(|&length| long_name(length));
    let names: Vec<Vec<u8>> = NAMES.iter().map(|name| name.to_vec()).chain(long).collect();
    let lines = |word: &str| ended(names.iter().map(|name| [word.as_bytes(), b" ", &name[..]].concat()));
    let alone = on_letter(kind, "letter", "letter", b"ab".to_vec(), &[]);
    // What is saved over the letter is not what arrived.
    let over_the_letter = ["replace 0 1", "save letter", "undo", "save out", "redo", "undo", "save letter"];
    vec![
        script(kind, b"ab", lines("save")),
        script(kind, b"ab", lines("keep")),
        script(kind, b"ab", ended(over_the_letter)),
        Script { lines: ended(["save sub/out", "save sub", "save sub/out", "save busy"]), ..alone },
    ]
}

/// Every line that is complained of, twice, with many lines of all lengths between them: more than is read at once.
pub fn streams(seed: u64, kind: Kind) -> impl Iterator<Item = Script> {
    let mut rng = Rng::new(seed, &format!("desk {} streams", kind.name()));
    (0..2).map(move |_| {
        let mut lines = Vec::new();
        for bad in BAD_LINES.into_iter().flat_map(|(_, group)| group) {
            lines.extend(ended([bad]));
            let length = match rng.below(3) {
                0 => rng.below(8),
                1 => rng.below(300),
                _ => rng.below(9_000),
            };
            let filling = rng.pick(b"x  \t");
            lines.extend(ended([vec![filling; length], rng.pick(&[&b"show"[..], b""]).to_vec()]));
        }
        script(kind, b"ab", lines)
    })
}
