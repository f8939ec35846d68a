//! Runs a built program.

use std::env;
use std::io::Write;
use std::path::{Path, PathBuf};
use std::process::{Command, Stdio};
use std::thread;

pub struct Program {
    pub name: &'static str,
    pub path: PathBuf,
}

impl Program {
    /// The program of this name in the folder QALITHONDA_BIN, or `target/bin`.
    pub fn new(name: &'static str) -> Program {
        let folder = env::var("QALITHONDA_BIN").unwrap_or_else(|_| "target/bin".to_string());
        Program { name, path: Path::new(&folder).join(name) }
    }

    /// What the program prints when this is its standard input. Its exit status is 0, whatever it answers.
    pub fn run(&self, input: &[u8]) -> Result<Vec<u8>, String> {
        let failed = |problem: String| format!("cannot run {}: {problem}", self.path.display());
        let mut child = Command::new(&self.path)
            .stdin(Stdio::piped())
            .stdout(Stdio::piped())
            .spawn()
            .map_err(|error| failed(error.to_string()))?;
        let mut stdin = child.stdin.take().expect("a pipe");
        let output = thread::scope(|scope| {
            scope.spawn(move || {
                // A program may stop reading an input that is too long: a broken pipe is no fault.
                let _ = stdin.write_all(input);
            });
            child.wait_with_output()
        });
        let output = output.map_err(|error| failed(error.to_string()))?;
        match output.status.success() {
            true => Ok(output.stdout),
            false => Err(failed(format!("it ended with {}", output.status))),
        }
    }
}
