//! The kinds of a page.

use super::utf7::Style;
use super::{jp2, utf7, Elements};

/// "A page has a kind (UTF-7 header, UTF-7 body, JP-2)."
#[derive(Clone, Copy, Debug, PartialEq, Eq)]
pub enum Kind {
    Utf7Header,
    Utf7Body,
    Jp2,
}

impl Kind {
    /// The kinds in the order of their numbers.
    pub const ALL: [Kind; 3] = [Kind::Utf7Header, Kind::Utf7Body, Kind::Jp2];

    /// How its checks are named.
    pub fn name(self) -> &'static str {
        match self {
            Kind::Utf7Header => "utf7-header",
            Kind::Utf7Body => "utf7-body",
            Kind::Jp2 => "jp2",
        }
    }

    /// The number that stands for the kind in the C interface.
    pub fn number(self) -> u32 {
        self as u32
    }

    pub fn of_number(number: u32) -> Option<Kind> {
        Kind::ALL.into_iter().find(|kind| kind.number() == number)
    }

    pub fn read(self, text: &[u8]) -> Elements<u32> {
        match self {
            Kind::Utf7Header | Kind::Utf7Body => utf7::read(text),
            Kind::Jp2 => jp2::read(text),
        }
    }

    pub fn write(self, cells: &[u32]) -> Elements<u8> {
        match self {
            Kind::Utf7Header => utf7::write(Style::Header, cells),
            Kind::Utf7Body => utf7::write(Style::Body, cells),
            Kind::Jp2 => jp2::write(cells),
        }
    }
}
