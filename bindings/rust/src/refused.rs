use std::error::Error;
use std::fmt::{self, Display, Formatter};

/// Why a call was refused.
#[derive(Clone, Copy, Debug, PartialEq, Eq, Hash)]
#[non_exhaustive]
pub enum Refusal {
    /// A byte of 128 or more. The place is that byte.
    HighByte = 1,
    /// `+`, in a mailbox name `&`, followed by neither a Base64 letter nor `-`. The place is the byte that follows, or
    /// the text's length.
    LoneSign = 2,
    /// A byte that no rule allows there. The place is that byte.
    StrayByte = 3,
    /// Left-over bits of a run that are not zero, or six or more of them in UTF-7. The place is the byte that ends the
    /// run (in a mailbox name its `-`), or the text's length.
    LeftOverBits = 4,
    /// An escape that is neither ESC N nor a designation. The place is the first byte that fits none.
    UnknownEscape = 5,
    /// ESC N with nothing in G2. The place is the N.
    EmptyG2 = 6,
    /// The text ends in an escape, in a pair or after ESC N, or a mailbox name in a run. The place is the text's
    /// length.
    CutShort = 7,
    /// The text ends with G0 not ASCII. The place is the text's length.
    NotAscii = 8,
    /// Too little room. The place is the number of elements needed in all.
    NoRoom = 9,
    /// A cell that is not writable in this kind. The place is its index.
    Unwritable = 10,
    /// Place plus count is beyond the page's length. The place is that length. In squeezing: fewer than two steps, or
    /// more than stand. The place is 0.
    BeyondLength = 11,
    /// The step does not fit the history. The place is the number of words needed in all.
    HistoryFull = 12,
    /// Nothing to undo or redo. The place is 0.
    NothingLeft = 13,
    /// The page of a page file is not sound, or does not fit the room for text. The place is 0. (A
    /// [`Page`](crate::Page) is always sound, and so are [`Benches`](crate::Benches).)
    Unsound = 14,
    /// The arrived bytes of a page file do not read as the text, or as so many cells as the page was opened with. The
    /// place is 0. (Those of a [`Page`](crate::Page) that was opened always do.)
    NotTheText = 15,
    /// More than [`LIMIT`](crate::LIMIT) elements, or bytes than [`jp2::PLAIN_LIMIT`](crate::jp2::PLAIN_LIMIT) for
    /// [`jp2::plain_read`](crate::jp2::plain_read). The place is that limit.
    OverLimit = 16,
    /// A needless shift in a mailbox name. For a unit of 32 to 126 in a run the place is the letter that completes it,
    /// for a run directly after a run its first letter, and for six or more left-over bits, all zero, the `-` that
    /// closes the run.
    NeedlessShift = 17,
    /// A bad page file. The place is the first byte that no page file can have there, or the length if it ends early.
    BadPageFile = 18,
    /// Squeezed, the history would not become shorter. The place is 0.
    NoGain = 19,
    /// There is no such bench: they are 0 and 1. The place is 0.
    NoSuchBench = 20,
    /// A bad word in a subject line. The place is the first byte that no line of such words can have there, or the length
    /// if it ends early.
    BadWord = 21,
}

impl Refusal {
    const ALL: [Refusal; 21] = [
        Refusal::HighByte,
        Refusal::LoneSign,
        Refusal::StrayByte,
        Refusal::LeftOverBits,
        Refusal::UnknownEscape,
        Refusal::EmptyG2,
        Refusal::CutShort,
        Refusal::NotAscii,
        Refusal::NoRoom,
        Refusal::Unwritable,
        Refusal::BeyondLength,
        Refusal::HistoryFull,
        Refusal::NothingLeft,
        Refusal::Unsound,
        Refusal::NotTheText,
        Refusal::OverLimit,
        Refusal::NeedlessShift,
        Refusal::BadPageFile,
        Refusal::NoGain,
        Refusal::NoSuchBench,
        Refusal::BadWord,
    ];

    /// Its number, 1 to 21.
    pub fn number(self) -> u32 {
        self as u32
    }

    /// The refusal with this number.
    pub(crate) fn of(number: u32) -> Option<Refusal> {
        Refusal::ALL.into_iter().find(|refusal| refusal.number() == number)
    }
}

/// A refusal and its place: what the place counts is said with each [`Refusal`].
///
/// ```
/// use qalithonda::{utf7, Refusal, Refused};
///
/// let refused = utf7::read_to_vec(b"+AKN-").unwrap_err();
/// assert_eq!(refused, Refused { refusal: Refusal::LeftOverBits, place: 4 });
/// assert_eq!(refused.refusal.number(), 4);
/// assert_eq!(refused.to_string(), "refused with 4: the run that ends at 4 has left-over bits that are not zero, or six or more");
/// ```
#[derive(Clone, Copy, Debug, PartialEq, Eq, Hash)]
pub struct Refused {
    /// Why.
    pub refusal: Refusal,
    /// Where, or how many.
    pub place: usize,
}

impl Display for Refused {
    fn fmt(&self, f: &mut Formatter<'_>) -> fmt::Result {
        let Refused { refusal, place } = self;
        write!(f, "refused with {}: ", refusal.number())?;
        match refusal {
            Refusal::HighByte => write!(f, "the byte at {place} is 128 or more"),
            Refusal::LoneSign => write!(f, "'+' or '&' is followed by neither a Base64 letter nor '-' at {place}"),
            Refusal::StrayByte => write!(f, "no rule allows the byte at {place} there"),
            Refusal::LeftOverBits => {
                write!(f, "the run that ends at {place} has left-over bits that are not zero, or six or more")
            }
            Refusal::UnknownEscape => write!(f, "the byte at {place} fits no escape"),
            Refusal::EmptyG2 => write!(f, "ESC N at {place} with nothing in G2"),
            Refusal::CutShort => write!(f, "the text ends at {place} in an escape, a pair or a run, or after ESC N"),
            Refusal::NotAscii => write!(f, "the text ends at {place} with G0 not ASCII"),
            Refusal::NoRoom => write!(f, "too little room, {place} elements are needed"),
            Refusal::Unwritable => write!(f, "the cell at {place} is not writable in this kind"),
            Refusal::BeyondLength => {
                write!(f, "place plus count is beyond the length, {place}, or there are not so many steps to squeeze")
            }
            Refusal::HistoryFull => write!(f, "the step does not fit the history, {place} words are needed"),
            Refusal::NothingLeft => write!(f, "there is nothing to undo or redo"),
            Refusal::Unsound => write!(f, "the page is not sound"),
            Refusal::NotTheText => write!(f, "the arrived bytes do not read as the text"),
            Refusal::OverLimit => write!(f, "there are more than {place} elements"),
            Refusal::NeedlessShift => write!(f, "there is a needless shift, noticed at {place}"),
            Refusal::BadPageFile => write!(f, "it is no page file, as is seen at {place}"),
            Refusal::NoGain => write!(f, "squeezed, the history would not become shorter"),
            Refusal::NoSuchBench => write!(f, "there is no such bench"),
            Refusal::BadWord => write!(f, "no line of such words has the byte at {place} there, or ends there"),
        }
    }
}

impl Error for Refused {}

#[cfg(test)]
mod tests {
    use super::*;

    #[test]
    fn each_number_has_its_refusal() {
        let numbers: Vec<u32> = (0..=22).filter_map(Refusal::of).map(Refusal::number).collect();
        assert_eq!(numbers, (1..=21).collect::<Vec<_>>());
    }

    #[test]
    fn messages_say_number_and_place() {
        let message = |refusal| Refused { refusal, place: 12 }.to_string();
        let without_place = [
            Refusal::NothingLeft,
            Refusal::Unsound,
            Refusal::NotTheText,
            Refusal::NoGain,
            Refusal::NoSuchBench,
        ];
        for refusal in Refusal::ALL {
            assert!(message(refusal).starts_with(&format!("refused with {}: ", refusal.number())));
            let place_said = message(refusal).split(": ").nth(1).is_some_and(|why| why.contains("12"));
            assert_eq!(place_said, !without_place.contains(&refusal), "{}", message(refusal));
        }
    }
}
