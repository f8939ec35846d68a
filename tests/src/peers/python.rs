//! Python's codec utf_7, and its package email, in one process that is sent all texts.

use super::{ask, Answers};

/// A text of UTF-7 as a string.
const UTF_7: &str = r#"
def read(text):
    return text.decode("utf_7")
"#;

/// A header as a string: its parts, each with the name of its charset.
const HEADER: &str = r#"
from email.header import decode_header
def read(header):
    parts = decode_header(header.decode("ascii"))
    return "".join(part if isinstance(part, str) else part.decode(name or "ascii") for part, name in parts)
"#;

const LOOP: &str = r#"
import sys
given, taken = sys.stdin.buffer.read(), 0
while taken < len(given):
    start = taken + 4
    taken = start + int.from_bytes(given[start - 4:start], "little")
    try:
        units = read(given[start:taken]).encode("utf_16_le", "surrogatepass")
        sys.stdout.buffer.write(len(units).to_bytes(4, "little") + units)
    except UnicodeDecodeError:
        sys.stdout.buffer.write(b"\xff\xff\xff\xff")
"#;

pub fn read_all(texts: &[Vec<u8>]) -> Answers {
    ask("python3", &["-c", &[UTF_7, LOOP].concat()], texts)
}

pub fn read_headers(lines: &[Vec<u8>]) -> Answers {
    ask("python3", &["-c", &[HEADER, LOOP].concat()], lines)
}
