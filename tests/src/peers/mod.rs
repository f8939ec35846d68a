//! Other programs' readers, of UTF-7 and of subject lines. Each gives the units of every text that it accepts, or says why
//! it is not at hand.

pub mod iconv;
pub mod perl;
pub mod python;

use std::io::Write;
use std::process::{Command, Stdio};
use std::thread;

/// The units of each text that is accepted.
pub type Answers = Result<Vec<Option<Vec<u32>>>, String>;

/// Units from little-endian pairs of bytes.
fn units(bytes: &[u8]) -> Vec<u32> {
    bytes.chunks_exact(2).map(|pair| u32::from(u16::from_le_bytes([pair[0], pair[1]]))).collect()
}

/// Sends all texts to one process: numbers of bytes, each with so many bytes. It writes for each the number of the units'
/// bytes and these, or the largest number if the text is refused.
fn ask(program: &str, arguments: &[&str], texts: &[Vec<u8>]) -> Answers {
    let missing = |problem: std::io::Error| format!("{program} is not here: {problem}");
    let mut child =
        Command::new(program).args(arguments).stdin(Stdio::piped()).stdout(Stdio::piped()).spawn().map_err(missing)?;
    let mut stdin = child.stdin.take().expect("a pipe");
    let output = thread::scope(|scope| {
        scope.spawn(move || {
            for text in texts {
                let length = u32::try_from(text.len()).expect("a short text").to_le_bytes();
                // If it stops early, its answers are too few.
                let _ = stdin.write_all(&[&length, text.as_slice()].concat());
            }
        });
        child.wait_with_output()
    });
    Ok(answers(&output.map_err(missing)?.stdout))
}

fn answers(mut output: &[u8]) -> Vec<Option<Vec<u32>>> {
    let mut answers = Vec::new();
    while let Some((length, rest)) = output.split_first_chunk() {
        let length = u32::from_le_bytes(*length);
        let bytes = if length == u32::MAX { 0 } else { length as usize };
        answers.push((length != u32::MAX).then(|| units(&rest[..bytes])));
        output = &rest[bytes..];
    }
    answers
}

#[cfg(test)]
mod tests {
    use super::*;

    #[test]
    fn answers_are_taken_apart() {
        let output = [&[4, 0, 0, 0, 0x65, 0, 0xE5, 0x65][..], &[0xFF; 4], &[0; 4]].concat();
        assert_eq!(answers(&output), [Some(vec![0x65, 0x65E5]), None, Some(vec![])]);
    }
}
