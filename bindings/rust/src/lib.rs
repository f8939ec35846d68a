#![doc = include_str!("../README.md")]
#![warn(missing_docs)]

mod benches;
mod compare;
mod ffi;
pub mod jp2;
pub mod mailbox;
mod page;
mod refused;
mod room;
mod steps;
pub mod subject;
pub mod utf7;

pub use benches::{Bench, Benches, Letter};
pub use compare::{Comparison, RefusedText, Text};
pub use page::{Kind, Page};
pub use refused::{Refusal, Refused};
pub use steps::{Step, Steps};

/// The most bytes that a text may have, the most cells that a list or a page may have, and the most words of a history.
pub const LIMIT: usize = 1_048_576;
