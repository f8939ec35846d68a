//! Order 1 of document 02: "A name has one spelling only: prove that equal units mean equal bytes." It is proved; here
//! it is asked of the built library alone, with no second program. And names are read as names: no text of UTF-7 is
//! taken for one, nor a name for UTF-7.

use std::collections::HashMap;

use super::call::{given, Call};
use super::subject::Subject;
use crate::formats::{self, Format};
use crate::library::{self, Function};
use crate::report::Report;
use crate::second::LIMIT;
use crate::texts::{self, lengths, Source};
use crate::trial::{quote, show, try_all};

static NAMES: &Source = &texts::mailbox::SOURCE;

pub fn run(report: &mut Report, seed: u64) {
    let what = "accepted names, read and written again by the library: each is that very name";
    report.check("mailbox-spelling-again", what, |_| written_again(names(seed), read, write));
    let what = "accepted names among every short one: equal cells come from equal bytes only";
    report.check("mailbox-spelling-equal", what, |_| equal_bytes(short_names(), read));

    let seeded = |source: &'static Source| source.texts(seed, "texts of another format", 50_000, lengths::mostly_short);
    let (mailbox, utf7) = (library::MAILBOX.read, library::UTF7.read);
    let subject = reader(formats::mailbox(), &mailbox);
    subject.check(report, "utf7-texts", "seeded texts of UTF-7, read as names", seeded(&texts::utf7::SOURCE));
    let subject = reader(formats::utf7(), &utf7);
    subject.check(report, "names", "seeded names, read as UTF-7", seeded(NAMES));
}

fn reader(format: Format, function: &Function<u8, u32>) -> Call<'_, u8, u32> {
    Call { name: format!("{}-read", format.name), function, second: format.read, enough: |bytes| bytes }
}

/// Every name of up to two bytes and of a few parts.
fn short_names() -> impl Iterator<Item = Vec<u8>> {
    texts::up_to_two_bytes().chain(NAMES.alphabets.iter().flat_map(|alphabet| alphabet.texts()))
}

/// Every short name, and seeded ones of any length.
fn names(seed: u64) -> impl Iterator<Item = Vec<u8>> {
    let seeded = NAMES.texts(seed, "names to write again", 200_000, lengths::mostly_short);
    let longer = NAMES.texts(seed, "longer names to write again", 2_000, |rng| rng.below(20_000));
    let at_limit = [LIMIT - 1, LIMIT].into_iter().flat_map(|length| NAMES.texts_of_length(length));
    short_names().chain(seeded).chain(longer).chain(NAMES.long_texts(seed, lengths::LONG)).chain(at_limit)
}

/// The cells of a name, if the library accepts it.
fn read(name: &[u8]) -> Option<Vec<u32>> {
    given(name.len(), |output| library::MAILBOX.read.call(name, output))
}

/// The name that the library writes these cells as, if it does.
fn write(cells: &[u32]) -> Option<Vec<u8>> {
    given(5 * cells.len(), |output| library::MAILBOX.write[0].call(cells, output))
}

/// That every accepted name is what its cells are written as; the count is that of the accepted names.
fn written_again(
    names: impl Iterator<Item = Vec<u8>>,
    read: impl Fn(&[u8]) -> Option<Vec<u32>>,
    write: impl Fn(&[u32]) -> Option<Vec<u8>>,
) -> Result<usize, String> {
    let mut accepted = 0;
    try_all(names, |name: &Vec<u8>| {
        let Some(cells) = read(name) else { return Ok(()) };
        accepted += 1;
        match write(&cells) {
            Some(written) if written == *name => Ok(()),
            Some(written) => Err(format!("it reads as {}, which are written as {}", show(&cells), quote(&written))),
            None => Err(format!("it reads as {}, which are not written", show(&cells))),
        }
    })?;
    Ok(accepted)
}

/// That no two accepted names have the same cells; the count is that of the accepted names.
fn equal_bytes(
    names: impl Iterator<Item = Vec<u8>>,
    read: impl Fn(&[u8]) -> Option<Vec<u32>>,
) -> Result<usize, String> {
    let mut spelled: HashMap<Vec<u32>, Vec<u8>> = HashMap::new();
    try_all(names, |name: &Vec<u8>| {
        let Some(cells) = read(name) else { return Ok(()) };
        match spelled.get(&cells) {
            Some(other) if other != name => Err(format!("it reads as {}, and so does {}", show(&cells), quote(other))),
            Some(_) => Ok(()),
            None => {
                spelled.insert(cells, name.clone());
                Ok(())
            }
        }
    })?;
    Ok(spelled.len())
}

#[cfg(test)]
mod tests {
    use super::*;
    use crate::second::mailbox;

    fn some_names() -> impl Iterator<Item = Vec<u8>> {
        NAMES.alphabets.iter().flat_map(|alphabet| alphabet.texts().take(5_000))
    }

    /// The second program's functions, with a change to what is read or written.
    fn second_read(name: &[u8]) -> Option<Vec<u32>> {
        mailbox::read(name).ok()
    }

    fn second_write(cells: &[u32]) -> Option<Vec<u8>> {
        mailbox::write(cells).ok()
    }

    #[test]
    fn the_second_program_spells_each_name_in_one_way() {
        let again = written_again(some_names(), second_read, second_write);
        let equal = equal_bytes(some_names(), second_read);
        assert!(again.is_ok_and(|count| count > 1_000) && equal.is_ok_and(|count| count > 1_000));
    }

    #[test]
    fn a_second_spelling_is_noticed() {
        // Zero bits that nobody needs, and a printable unit in a run.
        for (needless, name) in [(&b"&AKMA-"[..], &b"&AKM-"[..]), (b"&ACY-", b"&-"), (b"&AKM-&AKM-", b"&AKMAow-")] {
            let loose = |text: &[u8]| second_read(if text == needless { name } else { text });
            let both = || [name, needless].into_iter().map(<[u8]>::to_vec);
            assert!(written_again(both(), loose, second_write).is_err());
            assert!(equal_bytes(both(), loose).is_err());
        }
    }

    #[test]
    fn another_writing_is_noticed() {
        assert!(written_again(some_names(), second_read, |_| None).is_err());
        assert!(written_again(some_names(), second_read, |cells| cells.get(1..).and_then(second_write)).is_err());
    }
}
