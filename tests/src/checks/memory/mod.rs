//! Every function of the library, called on guarded memory: an access outside of what was lent, and a write to what was
//! lent to be read, ends the process, and `fault` says in which call. Each call is made twice, with all that is lent
//! flush with the guard before it and with the guard behind it, and must leave the same.

mod benches;
mod lists;
mod page;
mod stack;
mod steps;

use crate::fault;
use crate::formats::{self, Format};
use crate::guarded::Side;
use crate::library::compare::{self, Comparer};
use crate::library::steps::Cursor;
use crate::library::{self, Functions};
use crate::parts::Part;
use crate::settings::Settings;

/// A part for each format, for the plain reader, for the tally, for subject lines, for the page and for both benches, and one for all on a
/// small stack.
pub fn parts(settings: Settings) -> Vec<Part> {
    vec![
        of_format(formats::utf7, &library::UTF7, &compare::UTF7, settings),
        of_format(formats::jp2, &library::JP2, &compare::JP2, settings),
        of_format(formats::mailbox, &library::MAILBOX, &compare::MAILBOX, settings),
        Part::new("memory-jp2-plain", move |report| {
            lists::read(report, &formats::jp2(), &library::JP2_PLAIN_READ, settings);
        }),
        Part::new("memory-jp2-tally", move |report| lists::tally(report, &formats::jp2(), settings)),
        Part::new("memory-subject", move |report| lists::subject(report, settings)),
        Part::new("memory-page", move |report| page::run(report, settings)),
        Part::new("memory-benches", move |report| benches::run(report, settings)),
        Part::new("stack", move |report| stack::run(report, settings.seed)),
    ]
}

fn of_format<C: Cursor>(
    format: fn() -> Format,
    library: &'static Functions<C>,
    comparer: &'static Comparer,
    settings: Settings,
) -> Part {
    Part::new(format!("memory-{}", format().name), move |report| {
        let format = format();
        lists::read(report, &format, &library.read, settings);
        steps::run(report, &format, &library.step, settings);
        lists::compare(report, &format, comparer, settings);
        for function in library.write {
            lists::write(report, &format, function, settings);
        }
    })
}

/// How the checks are named, and what they try.
fn name(function: &str) -> String {
    format!("memory-{function}")
}

const WHAT: &str = "seeded cases, in guarded memory flush with either guard";

/// Makes a call with memory flush with each guard; what it leaves must not depend on that.
fn on_both_sides<T: PartialEq>(mut call: impl FnMut(Side) -> T) -> Result<T, String> {
    fault::in_way(", flush with the guard before what is lent");
    let front = call(Side::Front);
    fault::in_way(", flush with the guard behind what is lent");
    if front == call(Side::Back) {
        Ok(front)
    } else {
        Err("what is left depends on where the memory lies".to_string())
    }
}
