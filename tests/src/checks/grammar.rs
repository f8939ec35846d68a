//! Order 7 of document 02: "a text is accepted as JP-2 exactly when its lines (..) follow RFC 1554's formal syntax". It is
//! proved of the definitions; here the library's reader is compared with the recogniser of the second program.

use super::reading::check_on_texts;
use super::subject::Subject;
use crate::formats;
use crate::lent::filled;
use crate::library;
use crate::report::{Report, Statuses};
use crate::second::{grammar, LIMIT};

pub fn run(report: &mut Report, seed: u64) {
    check_on_texts(report, &ByGrammar, &formats::jp2(), seed);
}

/// Whether the library's reader accepts a text, where there is room enough.
struct ByGrammar;

impl Subject for ByGrammar {
    type Element = u8;
    type Expected = bool;

    fn name(&self) -> &str {
        "jp2-grammar"
    }

    fn second(&self, text: &[u8]) -> bool {
        grammar::follows(text)
    }

    fn compare(&self, text: &[u8], follows: &bool, _: &mut Statuses) -> Result<(), String> {
        // "Texts over the limit are excepted."
        if text.len() > LIMIT {
            return Ok(());
        }
        // No byte gives more than one cell.
        let answer = library::JP2.read.call(text, &mut filled(text.len()));
        if (answer.number == 0) == *follows {
            return Ok(());
        }
        let verb = if *follows { "follow" } else { "do not follow" };
        Err(format!("its lines {verb} the syntax, and the answer is {answer}"))
    }
}
