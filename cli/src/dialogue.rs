//! A proved program that is put bytes and says line by line what it has to say, until it ends.

use crate::program::{Program, Running};
use crate::sys;
use crate::trouble::Trouble;
use std::io::{self, Read};
use std::process::{Child, ChildStdin, ChildStdout};
use std::str::SplitInclusive;
use std::sync::atomic::{AtomicUsize, Ordering};
use std::thread;
use std::time::{Duration, Instant};

/// More bytes than any program says.
const MOST_SAID: usize = 1 << 20;
/// How often is looked whether the program goes on, in milliseconds.
const LOOK: i32 = 200;
/// How long it may neither take a part of what it is put nor say anything.
const PATIENCE: Duration = Duration::from_secs(30);

/// How far a program is: the parts that it took and the bytes that it said, and since when.
struct Watch {
    state: [usize; 2],
    since: Instant,
}

impl Watch {
    /// Looks at the program again; one that stands still for long is given up.
    fn see(&mut self, program: &Program, state: [usize; 2]) -> Result<(), Trouble> {
        if state != self.state {
            (self.state, self.since) = (state, Instant::now());
        } else if PATIENCE <= self.since.elapsed() {
            return Err(program.wrong("gives no answer"));
        }
        Ok(())
    }
}

/// Reads all that the program says, as long as it goes on, and tells how many parts it took.
fn read(
    program: &Program,
    output: &mut ChildStdout,
    taken: &AtomicUsize,
    mut tell: impl FnMut(usize),
) -> Result<Vec<u8>, Trouble> {
    let mut watch = Watch { state: [0; 2], since: Instant::now() };
    let mut said = vec![];
    let mut part = [0; 4096];
    while said.len() <= MOST_SAID {
        let parts = taken.load(Ordering::Relaxed);
        watch.see(program, [parts, said.len()])?;
        tell(parts);
        match sys::readable(output, LOOK) {
            Ok(true) => {}
            Ok(false) => continue,
            Err(e) if e.kind() == io::ErrorKind::Interrupted => continue,
            Err(e) => return Err(program.out_of_reach(&e)),
        }
        match output.read(&mut part) {
            Ok(0) => return Ok(said),
            Ok(n) => said.extend(&part[..n]),
            Err(e) => return Err(program.out_of_reach(&e)),
        }
    }
    Err(program.no_answer())
}

/// Sees that the program ended well.
fn end(program: &Program, mut child: Child) -> Result<(), Trouble> {
    match child.wait() {
        Ok(status) if status.success() => Ok(()),
        Ok(status) => Err(program.wrong(format!("ended badly: {status}"))),
        Err(e) => Err(program.out_of_reach(&e)),
    }
}

/// All that the program says, to which one part after the other is written while the parts that it took are counted.
pub fn said(
    program: &Program,
    write: impl FnOnce(ChildStdin, &AtomicUsize) + Send,
    tell: impl FnMut(usize),
) -> Result<String, Trouble> {
    let Running { mut child, input, mut output } = program.start()?;
    let taken = &AtomicUsize::new(0);
    let said = thread::scope(|scope| {
        let writer = thread::Builder::new().spawn_scoped(scope, move || write(input, taken));
        let said = match writer {
            Ok(_) => read(program, &mut output, taken, tell),
            Err(e) => Err(program.out_of_reach(&e)),
        };
        if said.is_err() {
            let _ = child.kill();
        }
        said
    });
    let ended = end(program, child);
    let said = said?;
    ended?;
    String::from_utf8(said).map_err(|_| program.no_answer())
}

/// A number as a program prints it.
pub fn number(word: &str) -> Option<u64> {
    word.parse().ok().filter(|number: &u64| number.to_string() == word)
}

/// The lines of what a program said that are still to be read.
pub struct Lines<'a> {
    program: &'a Program,
    rest: SplitInclusive<'a, char>,
}

impl<'a> Lines<'a> {
    pub fn new(program: &'a Program, said: &'a str) -> Lines<'a> {
        Lines { program, rest: said.split_inclusive('\n') }
    }

    /// The next line, which is whole.
    pub fn next(&mut self) -> Result<&'a str, Trouble> {
        let line = self.rest.next().and_then(|line| line.strip_suffix('\n'));
        line.ok_or_else(|| self.program.wrong("ended before it had said all"))
    }

    /// Nothing is left.
    pub fn is_read(mut self) -> bool {
        self.rest.next().is_none()
    }
}
