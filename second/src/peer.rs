//! Those that command lines are sent to: a program over pipes, or the prompt of this program.

use std::collections::VecDeque;
use std::io::{self, BufRead, BufReader, Write};
use std::process::{Child, ChildStdin, ChildStdout, Command, Stdio};
use std::sync::mpsc::{channel, Receiver, RecvTimeoutError, Sender};
use std::thread;
use std::time::Duration;

use crate::prompt::Prompt;

/// How long one answer may take before the program counts as hanging.
const PATIENCE: Duration = Duration::from_secs(60);

pub trait Peer {
    /// Sends whole lines, and does not wait for them to be read.
    fn send(&mut self, lines: Vec<u8>) -> io::Result<()>;

    /// The next answer line, without its line end.
    fn receive(&mut self) -> io::Result<String>;

    /// Ends the input, and gives what is written after the answers already received.
    fn rest(&mut self) -> io::Result<String>;
}

/// A program started with pipes. A thread writes to it and a thread reads from it, so that neither
/// side can stop the other, and a program that hangs is noticed.
pub struct Piped {
    child: Child,
    lines: Option<Sender<Vec<u8>>>,
    answers: Receiver<Vec<u8>>,
}

impl Piped {
    pub fn start(command: &[String]) -> io::Result<Piped> {
        let (program, arguments) = command
            .split_first()
            .ok_or_else(|| io::Error::other("no command to start"))?;
        let mut child = Command::new(program)
            .args(arguments)
            .stdin(Stdio::piped())
            .stdout(Stdio::piped())
            .spawn()?;
        let input = child
            .stdin
            .take()
            .ok_or_else(|| io::Error::other("no pipe to write to"))?;
        let output = child
            .stdout
            .take()
            .ok_or_else(|| io::Error::other("no pipe to read from"))?;
        let (lines, to_write) = channel();
        let (read, answers) = channel();
        thread::spawn(move || write_lines(input, to_write));
        thread::spawn(move || read_lines(output, read));
        Ok(Piped {
            child,
            lines: Some(lines),
            answers,
        })
    }
}

/// Writes until there is no more to come or nobody reads; a program that has gone shows itself in
/// the missing answers.
fn write_lines(mut input: ChildStdin, lines: Receiver<Vec<u8>>) {
    for text in lines {
        if input.write_all(&text).and_then(|()| input.flush()).is_err() {
            return;
        }
    }
}

/// Reads lines, each with its end, until the program has ended or nobody wants them.
fn read_lines(output: ChildStdout, lines: Sender<Vec<u8>>) {
    let mut output = BufReader::with_capacity(1 << 16, output);
    loop {
        let mut line = Vec::new();
        match output.read_until(b'\n', &mut line) {
            Ok(count) if count > 0 && lines.send(line).is_ok() => {}
            _ => return,
        }
    }
}

impl Peer for Piped {
    fn send(&mut self, lines: Vec<u8>) -> io::Result<()> {
        let sent = self
            .lines
            .as_ref()
            .is_some_and(|sender| sender.send(lines).is_ok());
        sent.then_some(())
            .ok_or_else(|| io::Error::other("the program takes no more lines"))
    }

    fn receive(&mut self) -> io::Result<String> {
        let line = self
            .answers
            .recv_timeout(PATIENCE)
            .map_err(|error| match error {
                RecvTimeoutError::Timeout => io::Error::other("no answer for a minute"),
                RecvTimeoutError::Disconnected => io::Error::other("the program has ended"),
            })?;
        let answer = line.strip_suffix(b"\n");
        let answer = answer.ok_or_else(|| io::Error::other("the program has ended in a line"))?;
        Ok(String::from_utf8_lossy(answer).into_owned())
    }

    fn rest(&mut self) -> io::Result<String> {
        self.lines = None;
        let mut rest = Vec::new();
        loop {
            match self.answers.recv_timeout(PATIENCE) {
                Ok(line) => rest.extend(line),
                Err(RecvTimeoutError::Disconnected) => break,
                Err(RecvTimeoutError::Timeout) => {
                    return Err(io::Error::other("the program does not end with its input"));
                }
            }
        }
        Ok(String::from_utf8_lossy(&rest).into_owned())
    }
}

impl Drop for Piped {
    fn drop(&mut self) {
        self.lines = None;
        // These fail only where the program has already ended.
        let _ = self.child.kill();
        let _ = self.child.wait();
    }
}

/// The prompt of this program.
pub struct InProcess {
    prompt: Prompt,
    answers: VecDeque<String>,
}

impl InProcess {
    pub fn new() -> InProcess {
        InProcess {
            prompt: Prompt::new(),
            answers: VecDeque::new(),
        }
    }
}

impl Peer for InProcess {
    fn send(&mut self, lines: Vec<u8>) -> io::Result<()> {
        let lines = lines.strip_suffix(b"\n").unwrap_or(&lines);
        for line in lines.split(|byte| *byte == b'\n') {
            self.answers.push_back(self.prompt.answer(line));
        }
        Ok(())
    }

    fn receive(&mut self) -> io::Result<String> {
        self.answers
            .pop_front()
            .ok_or_else(|| io::Error::other("no line waits for its answer"))
    }

    fn rest(&mut self) -> io::Result<String> {
        Ok(self.answers.drain(..).collect())
    }
}
