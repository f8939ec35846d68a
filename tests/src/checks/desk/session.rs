//! A program that is being run: fed piece by piece, and heard while it runs.

use std::io::{Read, Write};
use std::process::{Child, Command, Stdio};
use std::sync::mpsc::{self, Receiver, Sender};
use std::time::{Duration, Instant};
use std::{mem, thread};

use crate::trial::quote;

/// What comes from the program.
enum Event {
    Output(Vec<u8>),
    Errors(Vec<u8>),
    /// One of its two streams is closed.
    Closed,
}

pub struct Session {
    child: Child,
    /// What is sent here is written to its standard input.
    input: Option<Sender<Vec<u8>>>,
    events: Receiver<Event>,
    /// How many of its two streams are open.
    open: usize,
    /// All that it wrote to standard output and to standard error, and how much of each was looked at.
    output: Stream,
    errors: Stream,
    /// How long is waited for it.
    patience: Duration,
}

#[derive(Default)]
struct Stream {
    bytes: Vec<u8>,
    seen: usize,
}

impl Stream {
    fn has(&self, expected: &[u8]) -> bool {
        self.bytes.len() >= self.seen + expected.len()
    }

    /// That these bytes come next; no more need have come.
    fn take(&mut self, name: &str, expected: &[u8]) -> Result<(), String> {
        let found = &self.bytes[self.seen..];
        if !found.starts_with(expected) {
            return Err(format!("{name} has {} and not {}", quote(found), quote(expected)));
        }
        self.seen += expected.len();
        Ok(())
    }
}

impl Session {
    /// Starts a program.
    pub fn start(mut command: Command, patience: Duration) -> Result<Session, String> {
        let spawned = command.stdin(Stdio::piped()).stdout(Stdio::piped()).stderr(Stdio::piped()).spawn();
        let mut child = spawned.map_err(|error| format!("cannot run {}: {error}", command.get_program().display()))?;
        let (sender, events) = mpsc::channel();
        hear(child.stdout.take().expect("a pipe"), sender.clone(), Event::Output);
        hear(child.stderr.take().expect("a pipe"), sender, Event::Errors);
        let mut stdin = child.stdin.take().expect("a pipe");
        let (input, pieces) = mpsc::channel::<Vec<u8>>();
        // A program may end before it has read all of its input: a broken pipe is no fault.
        thread::spawn(move || pieces.iter().try_for_each(|piece| stdin.write_all(&piece)));
        let (output, errors) = (Stream::default(), Stream::default());
        Ok(Session { child, input: Some(input), events, open: 2, output, errors, patience })
    }

    /// Writes these bytes to its standard input, as soon as it takes them.
    pub fn feed(&self, bytes: &[u8]) {
        if let Some(input) = &self.input {
            // Where it no longer reads, nobody takes them.
            let _ = input.send(bytes.to_vec());
        }
    }

    /// Ends its standard input.
    pub fn close(&mut self) {
        self.input = None;
    }

    /// Waits until it has written these bytes to standard output and these to standard error.
    pub fn expect(&mut self, output: &[u8], errors: &[u8]) -> Result<(), String> {
        let came = self.wait(|session| session.output.has(output) && session.errors.has(errors));
        let taken =
            self.output.take("standard output", output).and_then(|()| self.errors.take("standard error", errors));
        match taken {
            Err(difference) if !came => Err(format!("there is no answer after {:?}: {difference}", self.patience)),
            taken => taken,
        }
    }

    /// Waits so long, in which it must not write anything.
    pub fn expect_silence(&mut self, time: Duration) -> Result<(), String> {
        let patience = mem::replace(&mut self.patience, time);
        self.wait(|session| session.output.has(b"?") || session.errors.has(b"?"));
        self.patience = patience;
        self.nothing_more()
    }

    /// Waits until it has ended by itself, with the status 0, and gives all that it wrote to standard output and to
    /// standard error.
    pub fn end(&mut self) -> Result<(&[u8], &[u8]), String> {
        if !self.wait(|_| false) {
            return Err(format!("it has not ended after {:?}", self.patience));
        }
        let status = self.child.wait().map_err(|error| format!("it cannot be waited for: {error}"))?;
        match status.success() {
            true => Ok((&self.output.bytes, &self.errors.bytes)),
            false => Err(format!("it ended with {status}")),
        }
    }

    /// That it wrote nothing that was not expected.
    pub fn nothing_more(&self) -> Result<(), String> {
        for (name, stream) in [("standard output", &self.output), ("standard error", &self.errors)] {
            if stream.bytes.len() > stream.seen {
                return Err(format!("{name} has {} too", quote(&stream.bytes[stream.seen..])));
            }
        }
        Ok(())
    }

    /// Hears it until this holds, or both streams are closed; false if that takes too long.
    fn wait(&mut self, holds: impl Fn(&Session) -> bool) -> bool {
        let deadline = Instant::now() + self.patience;
        while self.open > 0 && !holds(self) {
            match self.events.recv_timeout(deadline.saturating_duration_since(Instant::now())) {
                Ok(Event::Output(bytes)) => self.output.bytes.extend(bytes),
                Ok(Event::Errors(bytes)) => self.errors.bytes.extend(bytes),
                Ok(Event::Closed) => self.open -= 1,
                Err(_) => return false,
            }
        }
        true
    }
}

impl Drop for Session {
    fn drop(&mut self) {
        // Both fail if it has ended.
        let _ = self.child.kill();
        let _ = self.child.wait();
    }
}

/// Hands on all that comes from a stream of the program.
fn hear(mut stream: impl Read + Send + 'static, sender: Sender<Event>, event: fn(Vec<u8>) -> Event) {
    thread::spawn(move || {
        let mut buffer = vec![0; 65_536];
        while let Ok(count @ 1..) = stream.read(&mut buffer) {
            if sender.send(event(buffer[..count].to_vec())).is_err() {
                return;
            }
        }
        let _ = sender.send(Event::Closed);
    });
}
