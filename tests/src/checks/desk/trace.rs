//! A program that is stopped at each of its system calls, as strace does it, by Linux's ptrace on x86-64.

use std::fs::File;
use std::io;
use std::os::raw::{c_int, c_long, c_uint, c_ulong};
use std::os::unix::fs::FileExt;
use std::os::unix::process::CommandExt;
use std::process::Command;
use std::ptr;

extern "C" {
    fn ptrace(request: c_uint, process: c_int, address: c_ulong, data: c_ulong) -> c_long;
    fn waitpid(process: c_int, status: *mut c_int, options: c_int) -> c_int;
}

const TRACE_ME: c_uint = 0;
const KILL: c_uint = 8;
const GET_REGISTERS: c_uint = 12;
const SET_REGISTERS: c_uint = 13;
const TO_SYSTEM_CALL: c_uint = 24;
const SET_OPTIONS: c_uint = 0x4200;

/// Stops at system calls are told from others, and the program is killed where the one who traces it ends.
const OPTIONS: c_ulong = 0x01 | 0x0010_0000;

/// How a stop at a system call is told.
const AT_SYSTEM_CALL: c_int = 5 | 0x80;

/// Where the registers are that have a call's number, its arguments and its result.
const RESULT: usize = 10;
const THIRD: usize = 12;
const SECOND: usize = 13;
const FIRST: usize = 14;
const NUMBER: usize = 15;
type Registers = [u64; 27];

/// Calls by their numbers on x86-64.
pub const READ: u64 = 0;
pub const WRITE: u64 = 1;
pub const FSYNC: u64 = 74;
pub const RENAME: u64 = 82;
pub const UNLINK: u64 = 87;
pub const OPENAT: u64 = 257;

/// A call that is about to be made.
pub struct Call {
    pub number: u64,
    pub arguments: [u64; 3],
    process: c_int,
}

impl Call {
    /// Whether the argument of this place is the address of these bytes.
    pub fn names(&self, place: usize, bytes: &[u8]) -> bool {
        let mut found = vec![0; bytes.len()];
        let memory = File::open(format!("/proc/{}/mem", self.process));
        memory.is_ok_and(|memory| memory.read_exact_at(&mut found, self.arguments[place]).is_ok() && found == bytes)
    }
}

/// What is done at a call.
#[derive(Clone, Copy, PartialEq, Eq)]
pub enum Act {
    /// It is made.
    Go,
    /// It is not made, and fails with this error.
    Fail(i32),
    /// The program is killed before it.
    Kill,
}

/// Runs a program to its end, and asks at each system call what is to be done. An error is what ptrace failed with.
pub fn trace(command: &mut Command, mut at: impl FnMut(&Call) -> Act) -> io::Result<()> {
    // SAFETY: the call between fork and exec is one that may be made there.
    unsafe { command.pre_exec(|| asked(ptrace(TRACE_ME, 0, 0, 0)).map(drop)) };
    let child = command.spawn()?;
    let process = child.id() as c_int;
    wait(process)?;
    ask(SET_OPTIONS, process, OPTIONS)?;
    let mut failing = None;
    let mut inside = false;
    loop {
        ask(TO_SYSTEM_CALL, process, 0)?;
        let status = wait(process)?;
        if status & 0x7F == 0 || status & 0xFF != 0x7F {
            return Ok(());
        }
        if (status >> 8) & 0xFF != AT_SYSTEM_CALL {
            continue;
        }
        inside = !inside;
        let mut registers = registers(process)?;
        if inside {
            let arguments = [registers[FIRST], registers[SECOND], registers[THIRD]];
            match at(&Call { number: registers[NUMBER], arguments, process }) {
                Act::Go => {}
                Act::Fail(error) => {
                    failing = Some(error);
                    registers[NUMBER] = u64::MAX;
                    ask(SET_REGISTERS, process, registers.as_ptr() as c_ulong)?;
                }
                Act::Kill => {
                    ask(KILL, process, 0)?;
                    return wait(process).map(drop);
                }
            }
        } else if let Some(error) = failing.take() {
            registers[RESULT] = -i64::from(error) as u64;
            ask(SET_REGISTERS, process, registers.as_ptr() as c_ulong)?;
        }
    }
}

fn registers(process: c_int) -> io::Result<Registers> {
    let mut registers: Registers = [0; 27];
    ask(GET_REGISTERS, process, registers.as_mut_ptr() as c_ulong)?;
    Ok(registers)
}

fn ask(request: c_uint, process: c_int, data: c_ulong) -> io::Result<c_long> {
    // SAFETY: data is a number, or the address of registers, as the request wants it.
    asked(unsafe { ptrace(request, process, 0, data) })
}

fn asked(answer: c_long) -> io::Result<c_long> {
    if answer < 0 {
        Err(io::Error::last_os_error())
    } else {
        Ok(answer)
    }
}

/// Waits until it stops or ends.
fn wait(process: c_int) -> io::Result<c_int> {
    let mut status = 0;
    // SAFETY: the status is a place for a number.
    asked(unsafe { waitpid(process, ptr::addr_of_mut!(status), 0) }.into()).map(|_| status)
}

#[cfg(test)]
mod tests {
    use super::*;

    #[test]
    fn calls_are_seen_and_can_fail() {
        let mut command = Command::new("true");
        let mut count = 0;
        trace(&mut command, |_| {
            count += 1;
            Act::Go
        })
        .expect("a trace");
        assert!(count > 3);
        let mut kept = 0;
        trace(&mut Command::new("true"), |_| {
            kept += 1;
            if kept == 3 {
                Act::Kill
            } else {
                Act::Go
            }
        })
        .expect("a trace");
        assert_eq!(kept, 3);
    }
}
