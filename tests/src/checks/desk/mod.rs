//! The built program `desk`, run on scripts: all that it tells, and the files that it leaves, compared with what is
//! written out by hand and with the second program.

mod built;
mod folder;
mod harm;
mod kills;
mod limit;
mod nights;
mod same;
mod script;
mod seeded;
mod session;
mod standing;
mod system;
mod trace;

use std::collections::{BTreeMap, BTreeSet};

use crate::examples::desk::{self as examples, Transcript};
use crate::examples::nights as examples_of_nights;
use crate::formats;
use crate::parts::Part;
use crate::report::Report;
use crate::second::desk as second;
use crate::second::Kind;
use crate::trial::{try_all, try_examples, Input};
use built::Desk;
use script::Script;

/// The examples, and a part for each kind of page.
pub fn parts(seed: u64) -> Vec<Part> {
    let of_kind = |kind: Kind| Part::new(format!("desk-{}", kind.name()), move |report| check_kind(report, kind, seed));
    let kills = Part::new("desk-kills", move |report| kills::run(report, &Desk::new(), seed));
    [Part::new("desk-by-hand", check_by_hand), kills].into_iter().chain(Kind::ALL.map(of_kind)).collect()
}

fn check_by_hand(report: &mut Report) {
    let desk = Desk::new();
    let mut check = |name: &str, what: &str, transcripts: Vec<Transcript>| {
        report.check(&format!("desk-{name}"), what, |_| {
            try_examples(&transcripts, |transcript| desk.compare_transcript(transcript, desk.umask, ""))
        });
    };
    check("worked", "the worked page of document 01, as a script", examples::worked());
    check("starts", "starts that fail, and letters that are refused", examples::starts());
    check("bad-lines", "lines that are complained of, by complaint", examples::bad_lines());
    check("odd-lines", "lines that are just right", examples::odd_lines());
    check("saves", "files that are saved, and files that cannot be", examples::saves());
    check("quits", "pages that are left saved, and not saved", examples::quits());
    check("squeezes", "old steps folded, and marks in the fold and behind it", examples::squeezes());
    check("page-files", "page files that are refused", examples_of_nights::refused_files());
    report.check("desk-nights", "pages that are kept and gone on with, over several runs", |_| {
        try_examples(&examples_of_nights::all(), |nights| desk.compare_nights(nights))
    });
    system::run(report, &desk);
    harm::run(report, &desk);
}

fn check_kind(report: &mut Report, kind: Kind, seed: u64) {
    let desk = Desk::new();
    let name = |name: &str| format!("desk-{}-{name}", kind.name());
    let mut check = |of: &str, what: &str, scripts: &mut dyn Iterator<Item = Script>| {
        report.check(&name(of), what, |statuses| try_all(scripts, |script| desk.follow(script, statuses)));
    };
    check("seeded", "seeded scripts on whole letters", &mut seeded::scripts(seed, kind, "whole", 140));
    check("letters", "letters whole and damaged, short, at the limit and over it", &mut limit::letters(kind));
    check("any-letters", "seeded scripts on letters whole and damaged", &mut seeded::on_any_letters(seed, kind, 60));
    check("pages", "scripts on pages as long as can be", &mut limit::pages(kind).into_iter());
    check("lines", "lines as long as can be, and longer", &mut limit::lines(kind).into_iter());
    check("streams", "scripts of more lines than are read at once", &mut limit::streams(seed, kind));
    check("names", "names to save to, and names that cannot be saved to", &mut limit::names(kind).into_iter());
    let what = "page files of all sorts, and damaged ones, gone on with";
    check("page-files", what, &mut nights::on_page_files(seed, kind, 150));

    let what = "lists of scripts in one folder, with page files kept and gone on with";
    report.check(&name("nights"), what, |statuses| {
        let all = nights::seeded(seed, kind, 60).chain(limit::nights(kind));
        try_all(all, |nights| desk.follow_all(nights, statuses))
    });
    let what = "pages kept, and by later runs undone to the letter and redone, by what desk says alone";
    report.check(&name("back"), what, |_| {
        try_all(nights::edits(seed, kind, 40), |script| nights::undone_and_redone(&desk, script))
    });
    let what = "scripts of which each line is written only when those before it are answered";
    report.check(&name("line-by-line"), what, |statuses| {
        let scripts = seeded::scripts(seed, kind, "line by line", 15).chain(limit::lines(kind));
        let scripts = scripts.chain(nights::on_page_files(seed, kind, 4));
        try_in_turn(scripts, |script| desk.converse(script, false, statuses))
    });
    let what = "seeded scripts in which no half of a line is answered";
    report.check(&name("half-lines"), what, |statuses| {
        try_in_turn(seeded::scripts(seed, kind, "half lines", 2), |script| desk.converse(script, true, statuses))
    });
    let complaints = desk.complaints.take();
    let times: Vec<String> = complaints.iter().map(|(label, times)| format!("{label} {times}")).collect();
    let what = format!("every complaint that a script can cause came ({})", times.join(", "));
    report.check(&name("complaints"), &what, |_| are_exactly(&complaints, &COMPLAINTS));
    expect_statuses(report, kind);
}

/// The statuses that scripts can be told. These they cannot: 9 of open, for no letter within the limit has more cells
/// than the text buffer; 16 of all but open, for the buffers and the letter are within the limit, and no line has room
/// for so many cells; 14 of all but a page file, for each call is lent what the last one left; 9 of a page
/// file, for one that would need more room than there is is too long to be read; 9 of squeeze, for its work buffer is as long as the history,
/// and a record no shorter than what it stands for is 19. Save gives 10 and 15, and keep 15, only where a page file
/// made by hand has cells that are not writable, or other bytes than those that its steps were done on.
fn expect_statuses(report: &mut Report, kind: Kind) {
    report.expect_statuses(second::open_name(kind), &formats::of_kind(kind).statuses(&[0, 16]));
    report.expect_statuses(second::SHOW, &[0]);
    report.expect_statuses(second::REPLACE, &[0, 9, 10, 11, 12]);
    report.expect_statuses(second::UNDO, &[0, 13]);
    report.expect_statuses(second::REDO, &[0, 13]);
    report.expect_statuses(second::SQUEEZE, &[0, 11, 19]);
    report.expect_statuses(second::SAVE, &[0, 9, 10, 15]);
    report.expect_statuses(second::KEEP, &[0, 9, 15]);
    report.expect_statuses(second::PAGE, &[0, 14, 15, 18]);
}

/// What can be complained of in scripts, and the errors of the system that names in them can cause.
const COMPLAINTS: [&str; 17] = [
    "page file too long",
    "line too long",
    "no such command",
    "nothing may follow",
    "not saved",
    "ended, not saved",
    "replace",
    "squeeze",
    "name missing",
    "name missing to keep",
    "name too long",
    "name with a NUL",
    "a directory",
    "FILE: File name too long",
    "FILE: Not a directory",
    "FILE: Invalid or incomplete multibyte or wide character",
    "beside FILE: No such file or directory",
];

/// That each of these was complained of, and nothing else; the count is that of the complaints.
fn are_exactly(complaints: &BTreeMap<String, usize>, expected: &[&str]) -> Result<usize, String> {
    let expected: BTreeSet<&str> = expected.iter().copied().collect();
    let found: BTreeSet<&str> = complaints.keys().map(String::as_str).collect();
    if found != expected {
        return Err(format!("all that can be complained of is {expected:?}"));
    }
    Ok(complaints.values().sum())
}

/// Tries scripts that take long if they fail; one that does is not made smaller.
fn try_in_turn(
    scripts: impl Iterator<Item = Script>,
    mut try_one: impl FnMut(&Script) -> Result<(), String>,
) -> Result<usize, String> {
    let mut count = 0;
    for script in scripts {
        try_one(&script).map_err(|difference| format!("on {}: {difference}", script.show()))?;
        count += 1;
    }
    Ok(count)
}
