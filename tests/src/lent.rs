//! Memory that is lent to a call.

use std::fmt::UpperHex;

use crate::trial::same;

/// Elements before and after what is lent, which no call may touch.
const MARGIN: usize = 16;

/// An element that can be lent.
pub trait Element: Copy + PartialEq + UpperHex {
    /// What stands in an output before a call, at this index: nothing that a call writes there.
    fn filler(index: usize) -> Self;
}

impl Element for u8 {
    fn filler(index: usize) -> u8 {
        (128 + index % 128) as u8
    }
}

impl Element for u32 {
    fn filler(index: usize) -> u32 {
        0xDEAD_0000 + (index % 65_536) as u32
    }
}

/// So many elements as they stand in an output before a call.
pub fn filled<T: Element>(length: usize) -> Vec<T> {
    (0..length).map(T::filler).collect()
}

/// What is lent, with a margin on both sides.
pub struct Lent<T> {
    memory: Vec<T>,
}

impl<T: Element> Lent<T> {
    pub fn new(contents: &[T]) -> Lent<T> {
        let margin = filled(MARGIN);
        Lent { memory: [&margin, contents, &margin].concat() }
    }

    pub fn contents(&mut self) -> &mut [T] {
        let end = self.memory.len() - MARGIN;
        &mut self.memory[MARGIN..end]
    }

    /// The contents, or which element beside them was changed.
    pub fn take_back(mut self) -> Result<Vec<T>, String> {
        let margin = filled(MARGIN);
        let after = self.memory.split_off(self.memory.len() - MARGIN);
        let contents = self.memory.split_off(MARGIN);
        same(&margin, &self.memory, -(MARGIN as isize))?;
        same(&margin, &after, contents.len() as isize)?;
        Ok(contents)
    }
}

#[cfg(test)]
mod tests {
    use super::*;

    #[test]
    fn a_changed_margin_is_noticed() {
        let mut lent = Lent::new(&[1u8, 2]);
        lent.contents()[1] = 3;
        assert_eq!(lent.take_back(), Ok(vec![1, 3]));
        for (index, name) in [(MARGIN - 1, "-1"), (MARGIN + 2, "2")] {
            let mut lent = Lent::new(&[1u8, 2]);
            lent.memory[index] = 0;
            assert!(lent.take_back().is_err_and(|difference| difference.starts_with(&format!("element {name} is 00"))));
        }
    }
}
