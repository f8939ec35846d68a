//! Scripts for `desk`: all that it is started with, its input line by line.

use std::ops::Range;

use crate::second::desk::Start;
use crate::second::files::{Entry, Files};
use crate::trial::{quote, without, Input, QUOTED};

#[derive(Clone)]
pub struct Script {
    pub arguments: Vec<Vec<u8>>,
    pub files: Files,
    /// Each line as it is written, with its end.
    pub lines: Vec<Vec<u8>>,
}

impl Script {
    pub fn start(&self, umask: u32) -> Start {
        self.start_in(&Files::default(), umask)
    }

    /// In a folder that holds this, to which its own files are put.
    pub fn start_in(&self, before: &Files, umask: u32) -> Start {
        let mut files = before.clone();
        files.entries.extend(self.files.entries.clone());
        Start { arguments: self.arguments.clone(), files, umask, input: self.lines.concat() }
    }
}

/// Scripts that are run one after another in one folder. The files of each are put there before it, by whoever has the
/// folder too.
#[derive(Clone)]
pub struct Nights {
    pub runs: Vec<Script>,
}

impl Input for Nights {
    fn length(&self) -> usize {
        self.runs.iter().map(Input::length).sum()
    }

    fn without(&self, parts: Range<usize>) -> Nights {
        let mut before = 0;
        let shorter = self.runs.iter().map(|script| {
            let within = |place: usize| place.saturating_sub(before).min(script.length());
            let shorter = script.without(within(parts.start)..within(parts.end));
            before += script.length();
            shorter
        });
        Nights { runs: shorter.collect() }
    }

    fn show(&self) -> String {
        let runs: Vec<String> = self.runs.iter().map(Input::show).collect();
        runs.join("\n  and then ")
    }
}

impl Input for Script {
    fn length(&self) -> usize {
        self.lines.len()
    }

    fn without(&self, parts: Range<usize>) -> Script {
        Script { lines: without(&self.lines, parts), ..self.clone() }
    }

    fn show(&self) -> String {
        let arguments: String = self.arguments.iter().map(|argument| format!(" {}", show(argument))).collect();
        let files: Vec<String> = self.files.entries.iter().map(|(path, entry)| show_entry(path, entry)).collect();
        let lines = (1..).zip(&self.lines).map(|(number, line)| format!("\n    {number}. {}", show(line)));
        format!("desk{arguments}, beside {}:{}", files.join(", "), lines.collect::<String>())
    }
}

fn show_entry(path: &[u8], entry: &Entry) -> String {
    match entry {
        Entry::Folder => format!("a folder {}", show(path)),
        Entry::File { bytes, .. } => format!("a file {} with {}", show(path), show(bytes)),
    }
}

/// The first bytes, and how many there are where these are not all.
pub fn show(bytes: &[u8]) -> String {
    let length = if bytes.len() > QUOTED { format!(" (length {})", bytes.len()) } else { String::new() };
    format!("{}{length}", quote(bytes))
}

#[cfg(test)]
mod tests {
    use super::*;
    use crate::examples::desk::files;

    #[test]
    fn lines_are_left_out_of_all_runs() {
        let script = |lines: &[&str]| Script {
            arguments: vec![],
            files: Files::default(),
            lines: lines.iter().map(|line| line.as_bytes().to_vec()).collect(),
        };
        let nights = Nights { runs: vec![script(&["a", "b"]), script(&[]), script(&["c", "d", "e"])] };
        let left = |parts| nights.without(parts).runs.iter().map(|run| run.lines.concat()).collect::<Vec<_>>();
        assert_eq!(nights.length(), 5);
        assert_eq!(left(0..1), [&b"b"[..], b"", b"cde"]);
        assert_eq!(left(1..4), [&b"a"[..], b"", b"e"]);
        assert_eq!(left(2..3), [&b"ab"[..], b"", b"de"]);
        assert_eq!(left(0..5), [b"", b"", b""]);
    }

    #[test]
    fn a_script_can_be_read() {
        let script = Script {
            arguments: vec![b"jp2".to_vec(), b"a letter".to_vec()],
            files: files(&[("a letter", "\x1B(B"), ("sub/", "")], 0o600),
            lines: vec![b"show\r\n".to_vec(), vec![b'x'; 200], b"\xFF".to_vec()],
        };
        let start = r#"desk "jp2" "a letter", beside a file "a letter" with "\x1b(B", a folder "sub":"#;
        let long = format!("\"{}\" .. (length 200)", "x".repeat(120));
        assert_eq!(script.show(), format!("{start}\n    1. \"show\\r\\n\"\n    2. {long}\n    3. \"\\xff\""));
        assert_eq!(script.without(0..3).show(), start);
    }
}
