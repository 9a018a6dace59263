//! The proved engine: found, started beside the tool, asked, and seen to end well.

use crate::frame::{self, Answer, Request, ANSWER_HEAD};
use crate::program::{Running, ENGINE};
use crate::sys;
use crate::trouble::Trouble;
use std::io::{self, Read, Write};
use std::process::{ChildStdin, ChildStdout};
use std::thread;

/// How long the engine may take for an answer.
const PATIENCE: i32 = 30_000;
/// The most bytes that a pipe is sure to take before anything is read from it.
const PIPE: usize = 8192;

/// An engine that runs.
pub struct Engine(Running);

fn wrong(what: impl std::fmt::Display) -> Trouble {
    ENGINE.wrong(what)
}

/// Nothing can be put to the engine, or had from it.
fn out_of_reach(e: &io::Error) -> Trouble {
    ENGINE.out_of_reach(e)
}

impl Engine {
    pub fn start() -> Result<Engine, Trouble> {
        ENGINE.start().map(Engine)
    }

    /// Fills the buffer from the engine's output, as long as it does not keep silent.
    fn read(output: &mut ChildStdout, buffer: &mut [u8]) -> Result<(), Trouble> {
        let mut at = 0;
        while at < buffer.len() {
            match sys::readable(output, PATIENCE) {
                Ok(false) => return Err(wrong("gives no answer")),
                Ok(true) => {}
                Err(e) if e.kind() == io::ErrorKind::Interrupted => continue,
                Err(e) => return Err(out_of_reach(&e)),
            }
            match output.read(&mut buffer[at..]) {
                Ok(0) => return Err(wrong("ended before it answered")),
                Ok(n) => at += n,
                Err(e) => return Err(out_of_reach(&e)),
            }
        }
        Ok(())
    }

    /// Puts the requests, and gives the answer to each.
    pub fn ask_all(&mut self, requests: &[Request]) -> Result<Vec<Answer>, Trouble> {
        let all: Vec<u8> = requests.iter().flat_map(|r| &r.bytes).copied().collect();
        let Running { child, input, output } = &mut self.0;
        thread::scope(|scope| {
            // One request that fits into the pipe is written at once; more is written while the answers are read.
            let written = match requests {
                [_] if all.len() <= PIPE => Engine::write(input, &all),
                _ => thread::Builder::new()
                    .spawn_scoped(scope, || Engine::write(input, &all))
                    .map_or_else(|e| Err(out_of_reach(&e)), |_| Ok(())),
            };
            let mut read = || requests.iter().map(|r| Engine::read_answer(output, r)).collect();
            let answers = written.and_then(|()| read());
            if answers.is_err() {
                let _ = child.kill();
                let _ = child.wait();
            }
            answers
        })
    }

    /// Writes to the engine; where it has ended, the reading says so.
    fn write(input: &mut ChildStdin, bytes: &[u8]) -> Result<(), Trouble> {
        match input.write_all(bytes) {
            Err(e) if e.kind() != io::ErrorKind::BrokenPipe => Err(out_of_reach(&e)),
            _ => Ok(()),
        }
    }

    fn read_answer(output: &mut ChildStdout, request: &Request) -> Result<Answer, Trouble> {
        let mut head = [0; ANSWER_HEAD];
        Engine::read(output, &mut head)?;
        let mut lent = vec![0; request.answered()];
        Engine::read(output, &mut lent)?;
        request.read(&head, &lent).ok_or_else(|| ENGINE.no_answer())
    }

    /// Puts one request.
    pub fn ask(&mut self, request: Request) -> Result<Answer, Trouble> {
        Ok(self.ask_all(&[request])?.remove(0))
    }

    /// Ends the engine, and sees that it had no more to say and ended well.
    pub fn finish(self) -> Result<(), Trouble> {
        let Running { mut child, mut input, mut output } = self.0;
        let _ = input.write_all(&frame::end().bytes);
        drop(input);
        let silent = match sys::readable(&output, PATIENCE) {
            Ok(true) => output.read(&mut [0]).is_ok_and(|more| more == 0),
            _ => false,
        };
        if !silent {
            let _ = child.kill();
            let _ = child.wait();
            return Err(wrong("says more than it was asked, or does not end"));
        }
        match child.wait() {
            Ok(status) if status.success() => Ok(()),
            Ok(status) => Err(wrong(format!("ended badly: {status}"))),
            Err(e) => Err(out_of_reach(&e)),
        }
    }
}
