//! The C header and the library's source, each as a list of items in C's terms.

pub mod c;
pub mod item;
pub mod layout;
pub mod rattle;
mod tokens;
