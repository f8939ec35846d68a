//! Numbers as lists of bits.

/// So many bits of a number, high bit first.
pub fn bits(number: usize, count: usize) -> impl Iterator<Item = usize> {
    (0..count).rev().map(move |place| number >> place & 1)
}

/// The number that these bits write, high bit first.
pub fn number(bits: &[usize]) -> usize {
    bits.iter().fold(0, |number, bit| 2 * number + bit)
}
