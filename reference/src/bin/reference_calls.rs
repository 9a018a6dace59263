//! Answers framed calls with the reference planner; `frame` says how.

use std::io::{self, BufReader, BufWriter};

fn main() -> io::Result<()> {
    let mut input = BufReader::new(io::stdin().lock());
    let mut output = BufWriter::new(io::stdout().lock());
    reference::frame::serve(&mut input, &mut output)
}
