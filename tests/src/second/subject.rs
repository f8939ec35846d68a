//! Subject lines, as order 14 of document 02 states them. A line is cut into words by looking ahead for where their form
//! breaks; each word's bytes are then read by the second program's reader of UTF-7, and the faults of both are gathered.

use super::utf7::{self, Style};
use super::{all_writable, within_limit, Answer, Elements};

const START: &[u8] = b"=?utf-7?Q?";
const END: &[u8] = b"?=";
const JOINT: &[u8] = b"\r\n ";

/// "at most 75 characters each"
const LONGEST: usize = 75;

/// A word: its bytes, each with the place where its spelling begins, and the place of the `?` that ends it, if one does.
struct Word {
    bytes: Vec<(u8, usize)>,
    end: Option<usize>,
}

/// Reads a line.
pub fn read(line: &[u8]) -> Elements<u32> {
    within_limit(line.len())?;
    let (words, broken) = words(line);
    let readings: Vec<Elements<u32>> = words.iter().map(cells).collect();
    let own = readings.iter().filter_map(|reading| reading.as_ref().err()).copied();
    let form = broken.map(|place| Answer { number: 21, place });
    // "the earliest of 21 [..] and the reader's own numbers at the place in the line [..], 21 first at one byte"
    match own.chain(form).min_by_key(|fault| (fault.place, fault.number != 21)) {
        Some(fault) => Err(fault),
        None => Ok(readings.into_iter().flatten().flatten().collect()),
    }
}

/// "each word read by itself": its cells, or the fault "at the place in the line (for an `=` pair its `=`, for a word's end
/// its `?`)". Of a word that has no end, what its bytes would be at one is no fault.
fn cells(word: &Word) -> Elements<u32> {
    let bytes: Vec<u8> = word.bytes.iter().map(|&(byte, _)| byte).collect();
    let Answer { number, place } = match utf7::read(&bytes) {
        Ok(cells) => return Ok(cells),
        Err(fault) => fault,
    };
    match word.bytes.get(place).map(|&(_, place)| place).or(word.end) {
        Some(place) => Err(Answer { number, place }),
        None => Ok(vec![]),
    }
}

/// The words of a line, and the "first byte no such line can have there, or the length", if its form is broken.
fn words(line: &[u8]) -> (Vec<Word>, Option<usize>) {
    let mut words = Vec::new();
    // "No units give an empty line."
    if line.is_empty() {
        return (words, None);
    }
    let mut at = 0;
    loop {
        if let Some(broken) = parts_from(line, at, START) {
            return (words, Some(broken));
        }
        let text = at + START.len();
        let (word, broken) = word(line, text);
        let end = word.end;
        words.push(word);
        let (Some(end), None) = (end, broken) else { return (words, broken) };
        at = end + END.len();
        if let Some(broken) = parts_from(line, end, END) {
            return (words, Some(broken));
        }
        if at == line.len() {
            return (words, None);
        }
        if let Some(broken) = parts_from(line, at, JOINT) {
            return (words, Some(broken));
        }
        at += JOINT.len();
    }
}

/// The first place from this one on where a line is not these bytes.
fn parts_from(line: &[u8], at: usize, bytes: &[u8]) -> Option<usize> {
    (0..bytes.len())
        .map(|index| (at + index, bytes[index]))
        .find(|&(at, byte)| line.get(at) != Some(&byte))
        .map(|(at, _)| at)
}

/// The word whose text begins here, and where its form breaks.
fn word(line: &[u8], text: usize) -> (Word, Option<usize>) {
    // The last place that a character of the text may have.
    let last = text + LONGEST - START.len() - END.len() - 1;
    let mut bytes = Vec::new();
    let mut at = text;
    let broken = loop {
        match line.get(at) {
            Some(b'?') if at > text => return (Word { bytes, end: Some(at) }, None),
            Some(b'=') if at + 2 <= last => {
                let digit =
                    |at: usize| line.get(at).and_then(|digit| b"0123456789ABCDEF".iter().position(|d| d == digit));
                let Some(high) = digit(at + 1) else { break at + 1 };
                let Some(low) = digit(at + 2) else { break at + 2 };
                bytes.push(((16 * high + low) as u8, at));
                at += 3;
            }
            Some(b'_') if at <= last => {
                bytes.push((b' ', at));
                at += 1;
            }
            Some(&byte @ 33..=126) if at <= last && !b"=?".contains(&byte) => {
                bytes.push((byte, at));
                at += 1;
            }
            _ => break at,
        }
    };
    (Word { bytes, end: None }, Some(broken))
}

/// Writes units as a line: "writing gives 16, 10, 9".
pub fn write(units: &[u32]) -> Elements<u8> {
    within_limit(units.len())?;
    all_writable(units, |unit| unit <= 0xFFFF)?;
    let mut words = Vec::new();
    let mut rest = units;
    while !rest.is_empty() {
        // Each unit takes a character at least. "Each word takes as many units as fit, but a high surrogate directly before
        // a low one shares its word"
        let longest = (1..=rest.len().min(LONGEST)).rev().skip_while(|&count| least(&rest[..count]) > LONGEST);
        let whole = longest.filter(|&count| count == rest.len() || !is_pair(rest[count - 1], rest[count]));
        let mut words_of = whole.map(|count| (count, spell(&rest[..count])));
        let (count, word) = words_of.find(|(_, word)| word.len() <= LONGEST).expect("two units fit");
        words.push(word);
        rest = &rest[count..];
    }
    Ok(words.join(JOINT))
}

/// The fewest characters that a word of these units can have: units above 127 stand in runs, of which a letter holds six
/// bits.
fn least(units: &[u32]) -> usize {
    let above = units.iter().filter(|&&unit| unit > 127).count();
    START.len() + units.len() - above + (16 * above).div_ceil(6) + END.len()
}

fn is_pair(high: u32, low: u32) -> bool {
    (0xD800..0xDC00).contains(&high) && (0xDC00..0xE000).contains(&low)
}

/// The bytes that each word of a line spells.
pub fn spelled_in(line: &[u8]) -> Vec<Vec<u8>> {
    let (words, _) = words(line);
    words.into_iter().map(|word| word.bytes.into_iter().map(|(byte, _)| byte).collect()).collect()
}

/// The word of these units: "its UTF-7 is complete in itself, its Q text spelled with `_` for space and `=` with two capital hex digits for other
/// controls, `=`, `?` and `_`, other bytes 33 to 126 as themselves"
pub fn spell(units: &[u32]) -> Vec<u8> {
    let bytes = utf7::write(Style::Header, units).expect("units");
    let mut word = START.to_vec();
    for byte in bytes {
        match byte {
            b' ' => word.push(b'_'),
            33..=126 if !b"=?_".contains(&byte) => word.push(byte),
            _ => word.extend(format!("={byte:02X}").bytes()),
        }
    }
    word.extend(END);
    word
}

#[cfg(test)]
mod tests {
    use super::*;
    use crate::examples::subject as examples;

    #[test]
    fn reads_and_writes_the_examples() {
        for example in examples::readings().into_iter().flat_map(|group| group.examples) {
            assert_eq!(read(&example.input), example.expected, "{example}");
        }
        for example in examples::writings().into_iter().flat_map(|group| group.examples) {
            assert_eq!(write(&example.input), example.expected, "{example}");
        }
    }

    #[test]
    fn no_unit_more_fits() {
        let units: Vec<u32> = (0..2_000).map(|index| index * index % 0xFFFF).collect();
        let line = write(&units).unwrap();
        let words = line.split(|&byte| byte == b'\r').map(|word| word.strip_prefix(b"\n ").unwrap_or(word));
        let words: Vec<Vec<u32>> = words.map(|word| read(word).expect("a word")).collect();
        for pair in words.windows(2) {
            let more = [&pair[0][..], &pair[1][..1]].concat();
            assert!(spell(&more).len() > LONGEST || is_pair(pair[0][pair[0].len() - 1], pair[1][0]));
        }
        assert_eq!(words.concat(), units);
        assert_eq!(read(&line), Ok(units));
    }
}
