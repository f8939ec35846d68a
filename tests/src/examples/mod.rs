//! Texts and cells for which the papers say what is given, so that no program is needed to know it.

pub mod benches;
pub mod compare;
pub mod desk;
pub mod jp2;
pub mod mailbox;
pub mod nights;
pub mod page;
pub mod page_file;
pub mod squeeze;
pub mod subject;
pub mod utf7;

use std::fmt::{self, Display, Formatter, UpperHex};
use std::ops::Range;

use crate::second::{Answer, Complete, Elements, Steps};
use crate::trial::show;

/// An input and what is given for it.
pub struct Example<I, E> {
    pub name: &'static str,
    pub input: Vec<I>,
    pub expected: E,
}

/// A text and what reading it gives.
pub type Reading = Example<u8, Elements<u32>>;

/// A text and what stepping through it gives.
pub type Stepping = Example<u8, Steps>;

/// Cells and what writing them gives.
pub type Writing = Example<u32, Elements<u8>>;

/// A text and what a lister prints for it.
pub type Listing = Example<u8, &'static str>;

/// Examples that one check tries.
pub struct Group<E> {
    pub name: &'static str,
    pub what: &'static str,
    pub examples: Vec<E>,
}

impl<I: UpperHex, E> Display for Example<I, E> {
    fn fmt(&self, f: &mut Formatter) -> fmt::Result {
        write!(f, "{}, {}", self.name, show(&self.input))
    }
}

fn gives<I: Copy, O: Copy>(name: &'static str, input: &[I], elements: &[O]) -> Example<I, Elements<O>> {
    Example { name, input: input.to_vec(), expected: Ok(elements.to_vec()) }
}

fn refuses<I: Copy, O>(name: &'static str, input: &[I], number: u32, place: usize) -> Example<I, Elements<O>> {
    Example { name, input: input.to_vec(), expected: Err(Answer { number, place }) }
}

/// The cells that are handed out, each with where its bytes begin and end, and then the answer.
fn steps(name: &'static str, text: &[u8], cells: &[(u32, Range<usize>)], number: u32, place: usize) -> Stepping {
    let cells =
        cells.iter().map(|(cell, bytes)| Complete { cell: *cell, begin: bytes.start, end: bytes.end }).collect();
    Example { name, input: text.to_vec(), expected: Steps { cells, answer: Answer { number, place } } }
}

fn prints(name: &'static str, text: &[u8], printed: &'static str) -> Listing {
    Example { name, input: text.to_vec(), expected: printed }
}
