//! Tries many inputs, makes one that fails smaller, and writes inputs and differences so that they can be read.

use std::fmt::{Display, UpperHex};
use std::ops::Range;

use crate::fault;

/// How often a failing input is tried with a part left out.
const ATTEMPTS: usize = 500;

/// How many elements of a list are written out.
const SHOWN: usize = 200;

/// Compares on every example, and names the first that fails; the count is that of the examples.
pub fn try_examples<E: Display>(
    examples: &[E],
    mut compare: impl FnMut(&E) -> Result<(), String>,
) -> Result<usize, String> {
    for example in examples {
        compare(example).map_err(|difference| format!("on {example}: {difference}"))?;
    }
    Ok(examples.len())
}

/// An input that parts can be left out of.
pub trait Input: Sized {
    /// How many parts it has.
    fn length(&self) -> usize;

    /// The input without these parts.
    fn without(&self, parts: Range<usize>) -> Self;

    /// The input, so that it can be read.
    fn show(&self) -> String;
}

impl<T: Copy + UpperHex> Input for Vec<T> {
    fn length(&self) -> usize {
        self.len()
    }

    fn without(&self, parts: Range<usize>) -> Vec<T> {
        without(self, parts)
    }

    fn show(&self) -> String {
        show(self)
    }
}

/// A list without these elements.
pub fn without<T: Clone>(list: &[T], parts: Range<usize>) -> Vec<T> {
    [&list[..parts.start], &list[parts.end..]].concat()
}

/// Compares on every input, and describes the first that fails; the count is that of the inputs.
pub fn try_all<I: Input>(
    inputs: impl IntoIterator<Item = I>,
    mut compare: impl FnMut(&I) -> Result<(), String>,
) -> Result<usize, String> {
    let mut count = 0;
    for input in inputs {
        fault::in_case(count);
        if let Err(difference) = fault::on_input(&input, &mut compare) {
            let (small, difference) = shrink(input, difference, compare);
            return Err(format!("on {}: {difference}", small.show()));
        }
        count += 1;
    }
    Ok(count)
}

/// A part of a failing input that fails too, with its difference: parts are left out, large ones first, while it fails.
fn shrink<I: Input>(input: I, difference: String, mut compare: impl FnMut(&I) -> Result<(), String>) -> (I, String) {
    let mut found = (input, difference);
    let mut attempts = 0;
    let mut size = found.0.length();
    while size > 0 {
        let mut start = 0;
        while start < found.0.length() && attempts < ATTEMPTS {
            let end = (start + size).min(found.0.length());
            let smaller = found.0.without(start..end);
            match fault::on_input(&smaller, &mut compare) {
                Err(difference) => found = (smaller, difference),
                Ok(()) => start += size,
            }
            attempts += 1;
        }
        size /= 2;
    }
    found
}

/// The first elements of a list in hex, and its length.
pub fn show<T: UpperHex>(list: &[T]) -> String {
    let digits: Vec<String> = list.iter().take(SHOWN).map(hex).collect();
    let rest = if list.len() > SHOWN { " .." } else { "" };
    format!("[{}{rest}] (length {})", digits.join(" "), list.len())
}

/// How many bytes of what is printed or lent are written out.
pub const QUOTED: usize = 120;

/// The first bytes of what is printed or lent, on one line.
pub fn quote(bytes: &[u8]) -> String {
    let rest = if bytes.len() > QUOTED { " .." } else { "" };
    format!("\"{}\"{rest}", bytes[..bytes.len().min(QUOTED)].escape_ascii())
}

fn hex<T: UpperHex>(element: &T) -> String {
    format!("{element:0width$X}", width = 2 * size_of::<T>())
}

/// That two lists of one length are equal, or where they first differ; their first element has this index.
pub fn same<T: UpperHex + PartialEq>(expected: &[T], found: &[T], first_index: isize) -> Result<(), String> {
    if expected == found {
        return Ok(());
    }
    match expected.iter().zip(found).zip(first_index..).find(|((left, right), _)| left != right) {
        Some(((left, right), index)) => Err(format!("element {index} is {} and not {}", hex(right), hex(left))),
        None => Ok(()),
    }
}

#[cfg(test)]
mod tests {
    use super::*;

    fn without_seven(list: &[u8]) -> Result<(), String> {
        if list.contains(&7) {
            Err("a seven".to_string())
        } else {
            Ok(())
        }
    }

    #[test]
    fn a_failing_input_is_made_small() {
        let inputs = [vec![1, 2, 3], vec![4, 5, 6, 7, 8, 9], vec![7]];
        let found = try_all(inputs, |input| without_seven(input));
        assert_eq!(found, Err("on [07] (length 1): a seven".to_string()));
    }

    #[test]
    fn inputs_are_counted() {
        assert_eq!(try_all([vec![1], vec![]], |input| without_seven(input)), Ok(2));
    }

    #[test]
    fn the_first_difference_is_named() {
        let difference = Err("element 1 is 00000005 and not 00000002".to_string());
        assert_eq!(same(&[1u32, 2, 3], &[1, 5, 6], 0), difference);
        assert_eq!(same(&[1u8, 2], &[1, 3], -1), Err("element 0 is 03 and not 02".to_string()));
        assert_eq!(same(&[1u8, 2], &[1, 2], 0), Ok(()));
    }
}
