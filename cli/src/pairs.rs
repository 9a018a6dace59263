//! Pairs of images, put to the program statement while what it says is read.

use crate::dialogue;
use crate::program::STATEMENT;
use crate::text::count;
use crate::trouble::Trouble;
use std::io::{self, IsTerminal, Write};
use std::process::ChildStdin;
use std::sync::atomic::{AtomicUsize, Ordering};
use std::time::{Duration, Instant};

/// After this time a terminal is told how far it is.
const QUIET: Duration = Duration::from_secs(1);

/// The images of a site: last month's and this month's.
pub type Pair = [Vec<u8>; 2];

/// How far the program is: told on a terminal where it takes long.
struct Progress {
    all: usize,
    start: Instant,
    told: bool,
}

impl Progress {
    fn tell(&mut self, taken: usize) {
        if QUIET <= self.start.elapsed() && io::stderr().is_terminal() {
            let all = count(self.all, "site");
            let _ = write!(io::stderr(), "\r\x1b[Klindurask: {taken} of {all}");
            self.told = true;
        }
    }
}

impl Drop for Progress {
    /// What was told goes again.
    fn drop(&mut self) {
        if self.told {
            let _ = write!(io::stderr(), "\r\x1b[K");
        }
    }
}

/// Writes each image after its length; where the program has ended, what it said tells.
fn write(mut input: ChildStdin, pairs: &[Pair], taken: &AtomicUsize) {
    for pair in pairs {
        let framed = pair.iter().flat_map(|image| {
            let length = image.len() as u16;
            length.to_be_bytes().into_iter().chain(image.iter().copied())
        });
        if input.write_all(&framed.collect::<Vec<u8>>()).is_err() {
            return;
        }
        taken.fetch_add(1, Ordering::Relaxed);
    }
}

/// All that the program says of the pairs.
pub fn said_of(pairs: &[Pair]) -> Result<String, Trouble> {
    let mut progress = Progress { all: pairs.len(), start: Instant::now(), told: false };
    let write = |input, taken: &AtomicUsize| write(input, pairs, taken);
    dialogue::said(&STATEMENT, write, |taken| progress.tell(taken))
}
