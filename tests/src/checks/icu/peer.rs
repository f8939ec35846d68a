//! ICU, asked by a program of its own (icu/offsets.c), which is built where ICU's headers are at hand.

use std::io::Write;
use std::path::{Path, PathBuf};
use std::process::{Command, Stdio};
use std::{env, fs, process, thread};

/// A unit that ICU reads, and the byte that it has it from.
#[derive(Clone, Copy, Debug, PartialEq, Eq)]
pub struct Unit {
    pub unit: u16,
    pub offset: usize,
}

/// ICU's converter of a format.
pub struct Peer {
    folder: PathBuf,
    converter: &'static str,
}

impl Peer {
    /// Builds the program for this converter; none where there is no compiler or ICU's headers are not at hand.
    pub fn build(converter: &'static str) -> Option<Result<Peer, String>> {
        let probe = "#include <unicode/ucnv.h>\n";
        let compiler = || Command::new("cc");
        run(compiler().args(["-x", "c", "-fsyntax-only", "-"]), probe.as_bytes()).ok()?;
        let folder = env::temp_dir().join(format!("qalithonda-icu-{}-{converter}", process::id()));
        let peer = Peer { folder, converter };
        let source = Path::new(env!("CARGO_MANIFEST_DIR")).join("icu/offsets.c");
        let built = fs::create_dir_all(&peer.folder).map_err(|error| error.to_string()).and_then(|()| {
            let mut build = compiler();
            build.args(["-std=c99", "-O1", "-Wall", "-Wextra"]).arg(source).arg("-o").arg(peer.program());
            run(build.args(["-licuuc", "-licudata"]), b"")
        });
        Some(built.map(|_| peer))
    }

    fn program(&self) -> PathBuf {
        self.folder.join("offsets")
    }

    /// What ICU reads each text as; none for those that it refuses.
    pub fn read(&self, texts: &[Vec<u8>]) -> Result<Vec<Option<Vec<Unit>>>, String> {
        let mut input = Vec::new();
        for text in texts {
            input.extend((text.len() as u32).to_ne_bytes());
            input.extend(text);
        }
        let output = run(Command::new(self.program()).arg(self.converter), &input)?;
        let mut rest = &output[..];
        texts.iter().map(|_| units(&mut rest).ok_or_else(|| "ICU's answers are cut short".to_string())).collect()
    }
}

impl Drop for Peer {
    fn drop(&mut self) {
        let _ = fs::remove_dir_all(&self.folder);
    }
}

/// What ICU reads the next text as, of what is left of its answers.
fn units(rest: &mut &[u8]) -> Option<Option<Vec<Unit>>> {
    let Ok(count) = usize::try_from(i32::from_ne_bytes(take(rest)?)) else {
        return Some(None);
    };
    let units: Option<Vec<u16>> = (0..count).map(|_| take(rest).map(u16::from_ne_bytes)).collect();
    let offsets: Option<Vec<i32>> = (0..count).map(|_| take(rest).map(i32::from_ne_bytes)).collect();
    let both = units?.into_iter().zip(offsets?);
    // An offset of -1, which says that ICU knows none, is that of no byte.
    Some(Some(both.map(|(unit, offset)| Unit { unit, offset: offset as usize }).collect()))
}

fn take<const N: usize>(rest: &mut &[u8]) -> Option<[u8; N]> {
    let (taken, left) = rest.split_first_chunk()?;
    *rest = left;
    Some(*taken)
}

/// What a command prints when this is its standard input, or what is wrong.
fn run(command: &mut Command, input: &[u8]) -> Result<Vec<u8>, String> {
    let name = command.get_program().to_string_lossy().into_owned();
    let piped = command.stdin(Stdio::piped()).stdout(Stdio::piped()).stderr(Stdio::piped());
    let mut child = piped.spawn().map_err(|error| format!("cannot run {name}: {error}"))?;
    let mut stdin = child.stdin.take().expect("a pipe");
    let output = thread::scope(|scope| {
        // A command that ends early has said why: a broken pipe is no fault.
        scope.spawn(move || stdin.write_all(input).is_ok());
        child.wait_with_output()
    });
    let output = output.map_err(|error| format!("cannot run {name}: {error}"))?;
    if output.status.success() {
        return Ok(output.stdout);
    }
    let said = String::from_utf8_lossy(&output.stderr).into_owned();
    Err(format!("{name} failed: {}", said.split_whitespace().collect::<Vec<_>>().join(" ")))
}

#[cfg(test)]
mod tests {
    use super::*;

    #[test]
    fn answers_are_read_back() {
        let mut bytes = Vec::new();
        bytes.extend(2i32.to_ne_bytes());
        bytes.extend([0x41u16, 0x2262].iter().flat_map(|unit| unit.to_ne_bytes()));
        bytes.extend([0i32, 2].iter().flat_map(|offset| offset.to_ne_bytes()));
        bytes.extend((-1i32).to_ne_bytes());
        let mut rest = &bytes[..];
        let expected = [Unit { unit: 0x41, offset: 0 }, Unit { unit: 0x2262, offset: 2 }];
        assert_eq!(units(&mut rest), Some(Some(expected.to_vec())));
        assert_eq!(units(&mut rest), Some(None));
        assert_eq!(units(&mut rest), None);
    }
}
