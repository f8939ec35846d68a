//! Where what `desk` tells and leaves first differs from what is expected.

use std::collections::BTreeSet;

use super::script::show;
use crate::second::desk::Told;
use crate::second::files::{Entry, Files};
use crate::trial::{quote, QUOTED};

/// That all that is told was written to a stream, and no more; or for which line it first was not.
pub fn same_told(name: &str, told: &[Told], of: fn(&Told) -> Vec<u8>, found: &[u8]) -> Result<(), String> {
    let mut rest = found;
    for (number, told) in told.iter().enumerate() {
        let expected = of(told);
        rest = rest.strip_prefix(&expected[..]).ok_or_else(|| {
            let line = if number == 0 { "at the start".to_string() } else { format!("for line {number}") };
            let found = &rest[..rest.len().min(expected.len().max(QUOTED))];
            let difference = same_bytes(name, &expected, found).err().unwrap_or_default();
            format!("{line} {difference}")
        })?;
    }
    same_bytes(name, &[], rest).map_err(|difference| format!("in the end {difference}"))
}

/// That these bytes were written to a stream or a file; or from where on they were not.
pub fn same_bytes(name: &str, expected: &[u8], found: &[u8]) -> Result<(), String> {
    if found == expected {
        return Ok(());
    }
    let same = found.iter().zip(expected).take_while(|(left, right)| left == right).count();
    let start = same.saturating_sub(QUOTED / 2);
    let (found, expected) = (quote(&found[start..]), quote(&expected[start..]));
    Err(format!("{name} has from byte {start} on {found} and not {expected}"))
}

/// That a folder has these files, with these bytes and modes, and no others.
pub fn same_files(expected: &Files, found: &Files) -> Result<(), String> {
    let paths: BTreeSet<&Vec<u8>> = expected.entries.keys().chain(found.entries.keys()).collect();
    for path in paths {
        let name = show(path);
        match (expected.entries.get(path), found.entries.get(path)) {
            (Some(expected), Some(found)) if expected == found => {}
            (Some(Entry::File { bytes: expected, mode: of_expected }), Some(Entry::File { bytes, mode })) => {
                same_bytes(&format!("the file {name}"), expected, bytes)?;
                return Err(format!("the file {name} has mode {mode:o} and not {of_expected:o}"));
            }
            (Some(_), Some(_)) => return Err(format!("{name} is a folder and no file, or a file and no folder")),
            (Some(_), None) => return Err(format!("{name} is not there")),
            (None, _) => return Err(format!("{name} is there too")),
        }
    }
    Ok(())
}

#[cfg(test)]
mod tests {
    use super::*;
    use crate::examples::desk::files;
    use crate::second::desk::{Complaint, UNDO};
    use crate::second::Answer;

    #[test]
    fn differences_are_named_by_line() {
        let told = [
            Told::Answer(UNDO, Answer { number: 13, place: 0 }),
            Told::Complaint(Complaint::NothingMayFollow),
            Told::Cells(vec![1]),
        ];
        let output = b"status=13\nplace=0\nstatus=0\ncount=1\ncells=00000001\n";
        let compare = |output: &[u8]| same_told("it", &told, Told::output, output);
        assert_eq!(compare(output), Ok(()));
        let at_end = "in the end it has from byte 0 on \"?\" and not \"\"";
        assert_eq!(compare(&[&output[..], b"?"].concat()), Err(at_end.to_string()));
        let starts =
            |difference: Result<(), String>, start: &str| difference.is_err_and(|text| text.starts_with(start));
        assert!(starts(compare(&output[..20]), "for line 2 it has from byte 0 on \"st\" and not \"status=0"));
        assert!(starts(compare(b""), "at the start it has from byte 0 on \"\" and not"));
        assert!(same_told("it", &told, Told::errors, b"desk: nothing may follow this command\n").is_ok());
    }

    #[test]
    fn differences_of_files_are_named() {
        let compare = |found: Files| same_files(&files(&[("a", "1"), ("d/", "")], 0o600), &found);
        let fault = |text: &str| Err(text.to_string());
        assert_eq!(compare(files(&[("a", "1"), ("d/", "")], 0o600)), Ok(()));
        assert_eq!(compare(files(&[("a", "1")], 0o600)), fault("\"d\" is not there"));
        assert_eq!(compare(files(&[("a", "1"), ("d/", ""), ("e/", "")], 0o600)), fault("\"e\" is there too"));
        assert_eq!(compare(files(&[("a", "1"), ("d/", "")], 0o644)), fault("the file \"a\" has mode 644 and not 600"));
        let bytes = fault("the file \"a\" has from byte 0 on \"2\" and not \"1\"");
        assert_eq!(compare(files(&[("a", "2"), ("d/", "")], 0o600)), bytes);
        assert!(compare(files(&[("a/", ""), ("d/", "")], 0o600)).is_err());
    }
}
