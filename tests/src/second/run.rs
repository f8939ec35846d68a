//! Runs of Base64 letters: their bits, and the letters that hold these.

use super::bits::{bits, number};
use super::Complete;

pub struct Run {
    /// The place of its first letter, or, where a cursor stands in the run, of the letter behind the cursor.
    pub start: usize,
    /// How many of its bits are of letters before that place.
    waiting: usize,
    bits: Vec<usize>,
}

impl Run {
    /// The run of these letters from this place on, with bits before them that wait. "A run's letters give six bits
    /// each, high bit first."
    pub fn new(waiting: &[usize], letters: &[usize], start: usize) -> Run {
        let of_letters = letters.iter().flat_map(|&letter| bits(letter, 6));
        Run { start, waiting: waiting.len(), bits: waiting.iter().copied().chain(of_letters).collect() }
    }

    /// Its units: "each full 16 bits are a unit". The bytes of one are, by order 2 of document 02, "from the letter
    /// holding its first bit to just past the letter holding its last".
    pub fn units(&self) -> impl Iterator<Item = Complete> + '_ {
        let first_bits = (0..).step_by(16);
        first_bits.zip(self.bits.chunks_exact(16)).map(|(bit, unit)| Complete {
            cell: number(unit) as u32,
            begin: self.letter_of(bit),
            end: self.letter_of(bit + 15) + 1,
        })
    }

    pub fn left_over(&self) -> &[usize] {
        self.bits.chunks_exact(16).remainder()
    }

    /// The place behind its letters.
    pub fn end(&self) -> usize {
        self.start + (self.bits.len() - self.waiting) / 6
    }

    /// The place of the letter that holds this bit. Bits that wait are the last of the letters before the cursor; no
    /// letter stands before the text, however many bits a cursor made by hand says there are.
    fn letter_of(&self, bit: usize) -> usize {
        match bit.checked_sub(self.waiting) {
            Some(bit) => self.start + bit / 6,
            None => self.start.saturating_sub((self.waiting - bit).div_ceil(6)),
        }
    }
}

#[cfg(test)]
mod tests {
    use super::*;

    fn spans(run: &Run) -> Vec<(usize, usize)> {
        run.units().map(|unit| (unit.begin, unit.end)).collect()
    }

    #[test]
    fn neighbours_share_a_letter_where_a_letter_has_bits_of_both() {
        let run = Run::new(&[], &[0; 24], 5);
        let three = [(5, 8), (7, 11), (10, 13)];
        let again = three.map(|(begin, end)| (begin + 8, end + 8));
        let once_more = three.map(|(begin, end)| (begin + 16, end + 16));
        assert_eq!(spans(&run), [three, again, once_more].concat());
        assert_eq!(run.end(), 29);
    }

    #[test]
    fn a_cursor_in_a_run_changes_no_span() {
        let letters: Vec<usize> = (0..16).collect();
        let whole = Run::new(&[], &letters, 3);
        for cut in 1..16 {
            // The bits behind the last full unit before the cut wait.
            let given = 6 * cut / 16;
            let rest = Run::new(&whole.bits[16 * given..6 * cut], &letters[cut..], 3 + cut);
            assert_eq!(spans(&rest), spans(&whole)[given..]);
        }
    }

    #[test]
    fn no_letter_stands_before_the_text() {
        assert_eq!(spans(&Run::new(&[0; 15], &[0], 0)), [(0, 1)]);
        assert_eq!(spans(&Run::new(&[0; 15], &[0], 2)), [(0, 3)]);
        assert_eq!(spans(&Run::new(&[0; 15], &[0], 9)), [(6, 10)]);
        assert_eq!(spans(&Run::new(&[0; 12], &[0], 9)), [(7, 10)]);
        assert_eq!(spans(&Run::new(&[0; 1], &[0; 3], 9)), [(8, 12)]);
    }
}
