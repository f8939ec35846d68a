//! The formats: what the second program and the papers have of each, and what its programs are tried on.

use crate::examples::{self, Group, Listing, Reading, Stepping, Writing};
use crate::second::utf7::Style;
use crate::second::{jp2, mailbox, utf7, Elements, Kind, Steps};
use crate::texts::{self, Source};

pub struct Format {
    /// How its checks are named.
    pub name: &'static str,
    /// The lister of its texts, if there is one.
    pub lister: Option<Lister>,
    /// The faults of its texts.
    pub faults: &'static [u32],
    /// The second program's reader.
    pub read: fn(&[u8]) -> Elements<u32>,
    pub readings: Vec<Group<Reading>>,
    /// Whether two accepted texts, joined and within the limit, are read as both.
    pub joins: fn(&[u8], &[u8]) -> bool,
    /// The second program's steps, and its steps from a cursor with any numbers.
    pub steps: fn(&[u8]) -> Steps,
    pub steps_from: fn(&[u8], &[u64]) -> Steps,
    /// Whether its texts have runs, in which neighbours may share a letter.
    pub has_runs: bool,
    pub steppings: Vec<Group<Stepping>>,
    pub writers: Vec<Writer>,
    /// Makes texts and lists.
    pub source: &'static Source,
}

pub struct Lister {
    /// The name of the program.
    pub name: &'static str,
    pub listings: Vec<Listing>,
}

pub struct Writer {
    /// How its checks are named.
    pub name: &'static str,
    /// The second program's writer.
    pub write: fn(&[u32]) -> Elements<u8>,
    /// The bytes that suffice for so many cells.
    pub enough: fn(usize) -> usize,
    pub writings: Vec<Group<Writing>>,
}

impl Format {
    /// The statuses of a function that reads its texts, with these besides the faults.
    pub fn statuses(&self, others: &[u32]) -> Vec<u32> {
        [self.faults, others].concat()
    }
}

/// Every format.
pub fn all() -> [Format; 3] {
    [utf7(), jp2(), mailbox()]
}

/// The format of the texts of a kind of page.
pub fn of_kind(kind: Kind) -> Format {
    match kind {
        Kind::Utf7Header | Kind::Utf7Body => utf7(),
        Kind::Jp2 => jp2(),
    }
}

pub fn utf7() -> Format {
    let writer = |name, write, style| Writer {
        name,
        write,
        // "n units need at most 5n bytes."
        enough: |units| 5 * units,
        writings: examples::utf7::writings(style),
    };
    Format {
        name: "utf7",
        lister: Some(Lister { name: "utf7_lister", listings: examples::utf7::listings() }),
        faults: &[1, 2, 3, 4],
        read: utf7::read,
        readings: examples::utf7::readings(),
        // "For UTF-7 it holds when the first ends outside a run"
        joins: |first, _| utf7::ends_outside(first),
        steps: utf7::steps,
        steps_from: utf7::steps_from,
        has_runs: true,
        steppings: examples::utf7::steppings(),
        writers: vec![
            writer("utf7-header", |cells| utf7::write(Style::Header, cells), Style::Header),
            writer("utf7-body", |cells| utf7::write(Style::Body, cells), Style::Body),
        ],
        source: &texts::utf7::SOURCE,
    }
}

pub fn jp2() -> Format {
    let writer = Writer {
        name: "jp2",
        write: jp2::write,
        // "n cells need at most 6n + 3 bytes."
        enough: |cells| 6 * cells + 3,
        writings: examples::jp2::writings(),
    };
    Format {
        name: "jp2",
        lister: Some(Lister { name: "jp2_lister", listings: examples::jp2::listings() }),
        faults: &[1, 3, 5, 6, 7, 8],
        read: jp2::read,
        readings: examples::jp2::readings(),
        // "two accepted JP-2 texts joined are accepted"
        joins: |_, _| true,
        steps: jp2::steps,
        steps_from: jp2::steps_from,
        has_runs: false,
        steppings: examples::jp2::steppings(),
        writers: vec![writer],
        source: &texts::jp2::SOURCE,
    }
}

/// "a new kind for reading and writing but not for pages"
pub fn mailbox() -> Format {
    let writer = Writer {
        name: "mailbox",
        write: mailbox::write,
        // As in UTF-7: one unit in a run of its own has three letters.
        enough: |units| 5 * units,
        writings: examples::mailbox::writings(),
    };
    Format {
        name: "mailbox",
        lister: Some(Lister { name: "mailbox_lister", listings: examples::mailbox::listings() }),
        faults: &[1, 2, 3, 4, 7, 17],
        read: mailbox::read,
        readings: examples::mailbox::readings(),
        // Order 9 says nothing of names.
        joins: |first, second| !(mailbox::ends_in_run(first) && mailbox::begins_in_run(second)),
        steps: mailbox::steps,
        steps_from: mailbox::steps_from,
        has_runs: true,
        steppings: examples::mailbox::steppings(),
        writers: vec![writer],
        source: &texts::mailbox::SOURCE,
    }
}
