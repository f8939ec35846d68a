//! Other readers beside the library, where they are at hand. Of UTF-7 glibc's iconv and Python's utf_7: like the library
//! they refuse a run with bits that nobody needs (order 3 of document 02). Of subject lines (order 14) Python's email.header
//! and Perl's Encode. On every text the library and the peer both refuse, or both give the same units, or they differ for a
//! cause that is listed here. Of subject lines only those are read that the library accepts: the peers read any header.

use super::call::given;
use crate::lent::filled;
use crate::library::{self, Function, SUBJECT_READ, SUBJECT_WRITE};
use crate::peers::{iconv, perl, python, Answers};
use crate::report::Report;
use crate::second::{subject, utf7, Elements};
use crate::texts::subject::{self as lines, SHARED};
use crate::texts::{self, lengths};
use crate::trial::show;

/// A text, what the library gives for it, and the units of the peer, if it accepts it.
struct Case<'a> {
    text: &'a [u8],
    ours: Elements<u32>,
    theirs: Option<Vec<u32>>,
}

/// A cause for which a peer differs.
struct Cause {
    name: &'static str,
    what: &'static str,
    explains: fn(&Case) -> bool,
}

/// Reads texts one after another.
type ReadAll = fn(&[Vec<u8>]) -> Answers;

const ICONV: &[Cause] = &[
    Cause {
        name: "plus-dropped",
        what: "'+' before a byte that is neither a letter nor '-' is dropped; we refuse with 2",
        explains: |case| case.refused(2, false) && case.theirs.is_some(),
    },
    Cause {
        name: "open-end",
        what: "a run still open at the end is not judged; we refuse its left-over bits with 4",
        explains: |case| case.refused(4, true) && case.theirs.is_some(),
    },
    Cause {
        name: "pairs",
        what: "the halves of a surrogate pair stand in one run; to us they are units like any other",
        explains: |case| case.ours.iter().flatten().any(|unit| (0xD800..=0xDFFF).contains(unit)),
    },
];

const PYTHON: &[Cause] = &[
    Cause {
        name: "any-ascii",
        what: "every byte below 128 stands for itself outside a run; we refuse those of no set with 3",
        explains: |case| case.refused(3, false) && case.theirs.is_some(),
    },
    Cause {
        name: "plus-at-end",
        what: "'+' at the end of the text is dropped; we refuse with 2",
        explains: |case| case.refused(2, true) && case.theirs.is_some(),
    },
    HALF_AT_END,
];

const HALF_AT_END: Cause = Cause {
    name: "half-pair-at-end",
    what: "the first half of a surrogate pair in a run still open at the end is refused; to us it is a unit",
    explains: |case| case.theirs.is_none() && case.has_half_pair(),
};

const HEADERS_PYTHON: &[Cause] = &[JOINED, HALF_AT_END];

const HEADERS_PERL: &[Cause] = &[
    JOINED,
    Cause {
        name: "no-characters",
        what: "half a surrogate pair, one in two words too, and a noncharacter are U+FFFD; to us they are units",
        explains: |case| case.as_characters(),
    },
];

const JOINED: Cause = Cause {
    name: "joined",
    what: "words are joined before they are decoded: a run left open goes on in the next; to us each is by itself",
    explains: |case| {
        let words = subject::spelled_in(case.text);
        words.split_last().is_some_and(|(_, words)| words.iter().any(|word| !utf7::ends_outside(word)))
    },
};

/// Subject lines: what the library writes, and lines however shared and spelled that it accepts.
pub fn run_subject(report: &mut Report, seed: u64) {
    let source = &lines::SOURCE;
    let lists = source.lists(seed, "subjects for peers", 20_000);
    let written = lists.filter_map(|units| given(78 * units.len(), |line| SUBJECT_WRITE.call(&units, line)));
    let seeded = source.texts(seed, "lines for peers", 20_000, |rng| rng.below(400));
    let shared = SHARED.iter().flat_map(|units| lines::shared(units));
    let half_pair = b"=?utf-7?Q?+2AA?=".to_vec();
    let all = written.chain(seeded).chain(shared).chain(lines::pairs()).chain(lines::long_words()).chain([half_pair]);
    let accepted: Vec<Vec<u8>> = all.filter(|line| ours(&SUBJECT_READ, line).is_ok()).collect();
    against(report, "subject-python", python::read_headers, HEADERS_PYTHON, &SUBJECT_READ, &accepted);
    against(report, "subject-perl", perl::read_headers, HEADERS_PERL, &SUBJECT_READ, &accepted);
}

pub fn run(report: &mut Report, seed: u64) {
    let source = &texts::utf7::SOURCE;
    let short = source.alphabets.iter().flat_map(|alphabet| alphabet.texts());
    let seeded = source.texts(seed, "texts for the library", 200_000, lengths::mostly_short);
    let texts: Vec<Vec<u8>> = short.chain(seeded).collect();
    let reader = &library::UTF7.read;
    against(report, "iconv", iconv::read_all, ICONV, reader, &texts);
    against(report, "python", python::read_all, PYTHON, reader, &texts);
}

fn against(
    report: &mut Report,
    name: &str,
    read_all: ReadAll,
    causes: &[Cause],
    reader: &Function<u8, u32>,
    texts: &[Vec<u8>],
) {
    let answers = match read_all(texts) {
        Ok(answers) => answers,
        Err(missing) => return report.check(&format!("peers-{name}"), &missing, |_| Ok(0)),
    };
    let every = (answers.len() == texts.len()).then_some(texts.len());
    report.check(&format!("peers-{name}-answers"), "an answer to each text", |_| {
        every.ok_or("some are missing".to_string())
    });
    let cases: Vec<Case> =
        texts.iter().zip(answers).map(|(text, theirs)| Case { text, ours: ours(reader, text), theirs }).collect();
    let what = "texts that both refuse, or read as the same units";
    report.check(&format!("peers-{name}-agree"), what, |_| agreed(&cases, causes));
    for Cause { name: cause, what, explains } in causes {
        report.check(&format!("peers-{name}-{cause}"), what, |_| {
            let count = cases.iter().filter(|case| !case.agrees() && explains(case)).count();
            (count > 0).then_some(count).ok_or_else(|| "no text shows it".to_string())
        });
    }
}

/// How many cases agree, if the others differ for these causes.
fn agreed(cases: &[Case], causes: &[Cause]) -> Result<usize, String> {
    let (agree, differ): (Vec<&Case>, Vec<&Case>) = cases.iter().partition(|case| case.agrees());
    match differ.iter().find(|case| !causes.iter().any(|cause| (cause.explains)(case))) {
        None => Ok(agree.len()),
        Some(case) => Err(format!("{}: we {:?}, the peer {:?}", show(case.text), case.ours, case.theirs)),
    }
}

fn ours(reader: &Function<u8, u32>, text: &[u8]) -> Elements<u32> {
    let mut cells = filled(text.len());
    let answer = reader.call(text, &mut cells);
    if answer.number != 0 {
        return Err(answer);
    }
    cells.truncate(answer.place);
    Ok(cells)
}

impl Case<'_> {
    fn agrees(&self) -> bool {
        self.ours.as_ref().ok() == self.theirs.as_ref()
    }

    /// Whether we refuse with this number, at the end of the text or before it.
    fn refused(&self, number: u32, at_end: bool) -> bool {
        self.ours.as_ref().is_err_and(|answer| answer.number == number && (answer.place == self.text.len()) == at_end)
    }

    /// Whether the peer has our units, but for halves of characters and noncharacters, which may be U+FFFD.
    fn as_characters(&self) -> bool {
        let others = |units: &[u32]| -> Vec<u32> {
            let is_other = |unit: &u32| !matches!(unit, 0xD800..=0xDFFF | 0xFDD0..=0xFDEF | 0xFFFD..=0xFFFF);
            units.iter().copied().filter(is_other).collect()
        };
        matches!((&self.ours, &self.theirs), (Ok(ours), Some(theirs)) if others(ours) == others(theirs))
    }

    /// Whether our units have a surrogate with no other half beside it.
    fn has_half_pair(&self) -> bool {
        let units: Vec<u16> = self.ours.iter().flatten().map(|&unit| unit as u16).collect();
        char::decode_utf16(units).any(|decoded| decoded.is_err())
    }
}

#[cfg(test)]
mod tests {
    use super::*;

    fn case(text: &'static [u8], theirs: Option<&[u32]>) -> Case<'static> {
        Case { text, ours: utf7::read(text), theirs: theirs.map(<[u32]>::to_vec) }
    }

    #[test]
    fn a_difference_without_a_cause_is_noticed() {
        let listed =
            [case(b"+!", Some(&[0x21])), case(b"+A", Some(&[])), case(b"+2AA-", None), case(b"a", Some(&[0x61]))];
        assert_eq!(agreed(&listed, ICONV), Ok(1));
        for unlisted in
            [case(b"+A-", Some(&[])), case(b"a", None), case(b"a", Some(&[0x62])), case(b"~", Some(&[0x7E]))]
        {
            assert!(agreed(&[unlisted], ICONV).is_err());
        }
        assert_eq!(agreed(&[case(b"~", Some(&[0x7E])), case(b"+", Some(&[])), case(b"+A-", None)], PYTHON), Ok(1));
        assert!(agreed(&[case(b"+AAAA-", Some(&[0]))], PYTHON).is_err());
    }

    #[test]
    fn a_difference_of_headers_without_a_cause_is_noticed() {
        let case = |text: &'static [u8], theirs: &[u32]| Case {
            text,
            ours: subject::read(text),
            theirs: Some(theirs.to_vec()),
        };
        let joined = b"=?utf-7?Q?+AKM?=\r\n =?utf-7?Q?a?=";
        let half = b"=?utf-7?Q?a+2AA-?=";
        assert_eq!(agreed(&[case(joined, &[0xA3]), case(joined, &[0xA3, 0x61])], HEADERS_PYTHON), Ok(1));
        assert_eq!(agreed(&[case(half, &[0x61, 0xFFFD])], HEADERS_PERL), Ok(0));
        assert!(agreed(&[case(half, &[0x61, 0xFFFD])], HEADERS_PYTHON).is_err());
        assert!(agreed(&[case(half, &[])], HEADERS_PYTHON).is_err());
        assert!(agreed(&[case(half, &[0x62, 0xFFFD])], HEADERS_PERL).is_err());
    }
}
